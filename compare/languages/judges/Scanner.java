// The judge of Java: the scanner and the parser of javac.
import com.sun.tools.javac.file.JavacFileManager;
import com.sun.tools.javac.parser.ParserFactory;
import com.sun.tools.javac.parser.ScannerFactory;
import com.sun.tools.javac.parser.Tokens.TokenKind;
import com.sun.tools.javac.tree.JCTree.JCLiteral;
import com.sun.tools.javac.util.Context;
import com.sun.tools.javac.util.Log;
import java.io.BufferedReader;
import java.io.InputStreamReader;
import java.io.PrintWriter;
import java.io.Writer;
import java.net.URI;
import java.nio.charset.StandardCharsets;
import java.nio.file.Files;
import java.nio.file.Path;
import java.util.EnumSet;
import javax.tools.JavaFileObject;
import javax.tools.SimpleJavaFileObject;

class Scanner {
    static final EnumSet<TokenKind> NUMBERS =
        EnumSet.of(TokenKind.INTLITERAL, TokenKind.LONGLITERAL, TokenKind.FLOATLITERAL, TokenKind.DOUBLELITERAL);
    static final Context CONTEXT = new Context();

    // Begins to count the errors of a text. Two errors at one place of a source are one.
    static Log log() {
        var log = Log.instance(CONTEXT);
        log.nerrors = 0;
        log.useSource(new SimpleJavaFileObject(URI.create("text"), JavaFileObject.Kind.SOURCE) {
            public CharSequence getCharContent(boolean ignores) { return ""; }
        });
        return log;
    }

    static String judge(String text) {
        var log = log();
        var scanner = ScannerFactory.instance(CONTEXT).newScanner(text, false);
        scanner.nextToken();
        if (log.nerrors != 0 || !NUMBERS.contains(scanner.token().kind)) {
            return "-";
        }
        int end = scanner.token().endPos;
        var tree = ParserFactory.instance(CONTEXT).newParser(text.substring(0, end), false, false, false).parseExpression();
        // The parser reads the digits of `08`.
        var value = log.nerrors == 0 && tree instanceof JCLiteral it ? it.getValue() : "-";
        return end + " " + value + (value instanceof Float ? "f" : "");
    }

    static String numbers(String path) {
        var log = log();
        String text;
        try {
            text = Files.readString(Path.of(path), StandardCharsets.ISO_8859_1);
        } catch (java.io.IOException error) {
            return "- " + path;
        }
        var found = new StringBuilder();
        var scanner = ScannerFactory.instance(CONTEXT).newScanner(text, false);
        for (scanner.nextToken(); scanner.token().kind != TokenKind.EOF; scanner.nextToken()) {
            var it = scanner.token();
            if (NUMBERS.contains(it.kind)) {
                found.append(it.endPos - it.pos).append(' ').append(text.substring(it.pos).lines().findFirst().get()).append('\n');
            }
        }
        return log.nerrors == 0 ? found.toString().stripTrailing() : "- " + path;
    }

    public static void main(String[] arguments) throws Exception {
        CONTEXT.put(Log.errKey, new PrintWriter(Writer.nullWriter()));
        JavacFileManager.preRegister(CONTEXT);
        var out = new PrintWriter(System.out, false, StandardCharsets.ISO_8859_1);
        var lines = new BufferedReader(new InputStreamReader(System.in)).lines();
        lines.forEach(line -> out.println(arguments.length == 0 ? judge(line) : numbers(line)));
        out.flush();
    }
}
