# The judge of Ruby: its parser.
$VERBOSE = nil

# A sign belongs to the number: `-1` is a literal, whose node begins behind the sign, and `- 1` is a call.
def judge(text)
  node = RubyVM::AbstractSyntaxTree.parse("#{text}\n").children[2]
  columns = [text.start_with?('-') ? 1 : 0, text.size]
  value = node.type == :LIT && [node.first_column, node.last_column] == columns && node.children[0]
  value.is_a?(Numeric) ? "+ #{value}" : '-'
rescue SyntaxError
  '-'
end

$stdin.each_line(chomp: true) { |text| puts judge(text) }
