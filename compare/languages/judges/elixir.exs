# The judge of Elixir: its tokenizer.
answer = fn
  [{:int, {_, _, value}, digits} | _] -> "#{length(digits)} #{value}"
  [{:flt, {_, _, value}, digits} | _] -> "#{length(digits)} d" <> Base.encode16(<<value::float>>)
  _ -> "-"
end

judge = fn text ->
  case :elixir_tokenizer.tokenize(String.to_charlist(text), 1, []) do
    {:ok, _, _, _, tokens} -> answer.(tokens)
    {:error, {_, _, 'invalid float number ', digits}, _, _, []} -> "#{length(digits)} -"
    {:error, _, _, _, tokens} -> answer.(Enum.reverse(tokens))
  end
end

texts = IO.read(:stdio, :eof) |> String.trim_trailing("\n") |> String.split("\n")
IO.write(Enum.map(texts, &[judge.(&1), "\n"]))
