// The judge of Scala: its scanner.
import scala.reflect.internal.util.BatchSourceFile
import scala.tools.nsc.{Global, Settings}
import scala.tools.nsc.ast.parser.Tokens._
import scala.tools.nsc.reporters.StoreReporter

object Scan extends App {
  val settings = new Settings
  settings.usejavacp.value = true
  val reporter = new StoreReporter
  val global = new Global(settings, reporter)
  new global.Run

  def judge(text: String): String = {
    reporter.reset()
    val scanner = global.newUnitScanner(new global.CompilationUnit(new BatchSourceFile("", text)))
    scanner.init()
    val value = scanner.token match {
      case INTLIT => scanner.intVal.toInt.toString
      case LONGLIT => scanner.intVal.toString
      case FLOATLIT => s"${scanner.floatVal.toFloat}f"
      case DOUBLELIT => "d%016x".format(java.lang.Double.doubleToLongBits(scanner.floatVal))
      case _ => return "-"
    }
    val isRefused = reporter.hasErrors
    scanner.nextToken()
    s"${scanner.lastOffset} ${if (isRefused) "-" else value}"
  }

  io.Source.stdin.getLines.foreach(text => println(judge(text)))
}
