// The lexer of Kotlin.
import java.io.BufferedReader;
import java.io.InputStreamReader;
import org.jetbrains.kotlin.lexer.KotlinLexer;
import org.jetbrains.kotlin.lexer.KtTokens;

class KotlinTokens {
    static String size(String text) {
        var lexer = new KotlinLexer();
        lexer.start(text);
        var type = lexer.getTokenType();
        boolean isNumber = type == KtTokens.INTEGER_LITERAL || type == KtTokens.FLOAT_LITERAL;
        return (isNumber ? lexer.getTokenEnd() : "-") + "\n";
    }

    public static void main(String[] arguments) {
        var texts = new BufferedReader(new InputStreamReader(System.in)).lines();
        System.out.print(String.join("", texts.map(KotlinTokens::size).toList()));
    }
}
