# The lexer of Ruby.
require 'ripper'
$VERBOSE = nil
NUMBERS = %i[on_int on_float on_rational on_imaginary].freeze

# An error of the lexer is at the number or the byte behind it, but for that of a name, as in `1$`. The parser blames a later token, as in `1 1`.
def size(text)
  lexer = Ripper::Lexer.new(text)
  first = lexer.scan.first
  return '-' unless first && NUMBERS.include?(first.event)

  end_of = first.tok.bytesize
  wrong = lexer.errors.any? { |it| it.message !~ /syntax error| variable name/ && it.pos[1] <= end_of }
  wrong ? '-' : end_of
end

# A sign belongs to the number, but not to its token.
def numbers(path)
  text = File.binread(path)
  lines = text.lines
  found = Ripper.lex(text).select { |it| NUMBERS.include?(it[1]) }
  found.map do |(line, column), _, token|
    signs = token.start_with?('-', '+') ? 1 : 0
    "#{token.bytesize - signs} #{lines[line - 1].byteslice(column + signs..).chomp}"
  end
end

is_file = !ARGV.empty?
$stdin.each_line(chomp: true) { |line| puts is_file ? numbers(line) : size(line) }
