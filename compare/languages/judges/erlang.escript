%% The judge of Erlang: its scanner.
-mode(compile).

main(Words) ->
    ok = io:setopts([{encoding, latin1}]),
    judge(case Words of [] -> fun answer/1; _ -> fun numbers/1 end, io:get_line("")).

judge(_, eof) -> ok;
judge(Answer, Line) ->
    io:put_chars([Answer(lists:droplast(Line)), "\n"]),
    judge(Answer, io:get_line("")).

numbers(Path) ->
    {ok, Bytes} = file:read_file(Path),
    Lines = list_to_tuple(string:split(binary_to_list(Bytes), "\n", all)),
    case erl_scan:string(binary_to_list(Bytes), {1, 1}, [text]) of
        {ok, Tokens, _} -> lists:join("\n", [[length_of(About), line(Lines, erl_anno:location(About))]
                                             || {Kind, About, _} <- Tokens, Kind == integer orelse Kind == float]);
        _ -> ["- ", Path]
    end.

line(Lines, {Line, Column}) -> lists:nthtail(Column - 1, element(Line, Lines)).

answer(Text) ->
    case erl_scan:string(Text, {1, 1}, [text]) of
        {ok, [{integer, About, Value} | _], _} -> [length_of(About), integer_to_list(Value)];
        {ok, [{float, About, Value} | _], _} -> [length_of(About), "d", binary:encode_hex(<<Value:64/float>>)];
        %% No float has the value, or the exponent has no digits.
        {error, {{1, 1}, _, {illegal, float}}, {1, End}} -> io_lib:format("~w -", [End - 1]);
        %% What is behind the first token is wrong.
        {error, {{1, Column}, _, _}, _} when Column > 1 -> answer(lists:sublist(Text, Column - 1));
        _ -> "-"
    end.

length_of(About) -> io_lib:format("~w ", [length(erl_anno:text(About))]).
