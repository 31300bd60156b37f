// The judge of C#: the tokenizer of mcs.
using System;
using System.Collections.Generic;
using System.Globalization;
using System.IO;
using System.Text;
using Mono.CSharp;

static class Judge {
    static string Answer(string text) {
        var context = new CompilerContext(new CompilerSettings(), new StreamReportPrinter(TextWriter.Null));
        var file = new SourceFile("", "", 0);
        Location.Initialize(new List<SourceFile> { file });
        var source = new CompilationSourceFile(new ModuleContainer(context), file);
        var reader = new SeekableStreamReader(new MemoryStream(Encoding.ASCII.GetBytes(text + "\n")), Encoding.ASCII);
        var tokenizer = new Tokenizer(reader, source, new ParserSession(), context.Report);
        try {
            tokenizer.token();
            var value = (tokenizer.Value as Constant)?.GetValue();
            bool isNumber = value is IConvertible && !(value is char || value is string);
            if (!isNumber) return "-";
            string size = tokenizer.Location.Column + " ";
            if (context.Report.Errors != 0) return size + "-";
            bool isFloat = value is float || value is double;
            if (isFloat) return size + "d" + BitConverter.DoubleToInt64Bits(Convert.ToDouble(value)).ToString("x16");
            return size + Convert.ToString(value, CultureInfo.InvariantCulture);
        } catch (FormatException) {
            return "-";
        }
    }

    static void Main() {
        var output = new StringBuilder();
        for (string text; (text = Console.ReadLine()) != null; ) output.Append(Answer(text)).Append('\n');
        Console.Write(output);
    }
}
