# The judge of Raku: its grammar, and its compiler for what that takes.
use nqp;
use MONKEY-SEE-NO-EVAL;

sub shown($value) {
    return $value if $value ~~ Int;
    my $bits = buf8.new(0 xx 8);
    $bits.write-num64(0, $value.Num, BigEndian);
    'd' ~ $bits.list.fmt('%02x', '');
}

# Compiles many texts at once, and those by halves of which one has an error.
sub values(@texts) {
    my $values = try EVAL "no worries; [{@texts.map({ "$_," })}]";
    return $values.map(&shown) if $values;
    return ['-'] if @texts == 1;
    @texts.rotor(+@texts div 2 + +@texts % 2, :partial).map({ |values($_) });
}

my $grammar := nqp::getcomp('Raku').parsegrammar;
sub size($text) {
    my $*HAS_SELF = '';
    my $number = try $grammar.parse($text, :rule<number>);
    $number ?? $number.chars !! 0;
}

my @texts = $*IN.lines;
my @sizes = @texts.map(&size);
my @whole = (^@texts).grep({ @sizes[$_] == @texts[$_].chars }).map({ @texts[$_] });
my %values = @whole Z=> @whole.rotor(200, :partial).map({ |values($_) });
say @sizes[$_] ?? "@sizes[$_] {%values{@texts[$_]} // 0}" !! '-' for ^@texts;
