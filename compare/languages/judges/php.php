<?php
// The judge of PHP: its scanner and compiler.
function judge(string $text): string
{
    $token = PhpToken::tokenize("<?php $text")[1] ?? null;
    if (!$token?->is([T_LNUMBER, T_DNUMBER])) {
        return "-";
    }
    $size = strlen($token->text);
    try {
        $value = eval("return $token->text;");
    } catch (ParseError) {
        return "$size -";
    }
    return is_int($value) ? "$size $value" : "$size d" . bin2hex(pack("E", $value));
}

function numbers(string $path): string
{
    $text = file_get_contents($path);
    try {
        $tokens = PhpToken::tokenize($text, TOKEN_PARSE);
    } catch (ParseError) {
        return "- $path";
    }
    $found = array_filter($tokens, fn($it) => $it->is([T_LNUMBER, T_DNUMBER]));
    return implode("\n", array_map(fn($it) => strlen($it->text) . " " . strtok(substr($text, $it->pos), "\n"), $found));
}

while (($text = fgets(STDIN)) !== false) {
    $text = rtrim($text, "\n");
    echo isset($argv[1]) ? numbers($text) : judge($text), "\n";
}
