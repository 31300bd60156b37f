# The judge of Perl: its compiler, to which warnings of syntax are errors.
use strict;
use warnings FATAL => "syntax";
use B;

# Returns the value of a text that is a number and not a string. The operator `x`, which repeats, is not run.
sub value {
    my $text = shift;
    my $value = $text =~ /^(?!0x)[^x]*x|x.*x/i ? undef : eval $text;
    my $flags = B::svref_2object(\$value)->FLAGS;
    return "" if $flags & B::SVf_POK or not $flags & (B::SVf_IOK | B::SVf_NOK);
    return $flags & B::SVf_IOK ? $value : "d" . unpack("H16", pack("d>", $value));
}

# An expression is one token if it is another with a blank.
while (my $text = <STDIN>) {
    chomp $text;
    my $value = value($text);
    my @same = grep { value(substr($text, 0, $_) . " " . substr($text, $_)) eq $value } 1 .. length($text) - 1;
    print $value eq "" || @same ? "-\n" : "+ $value\n";
}
