% The judge of SWI-Prolog: `atom_number`.

% A number begins with a digit: in `-1`, the sign is an operator.
judge(Text, Value) :-
    string_code(1, Text, Code), code_type(Code, digit), \+ sub_string(Text, _, _, _, " "),
    atom_number(Text, Value),
    ( integer(Value) ; float(Value) ), !.

:- repeat, read_line_to_string(user_input, Text),
   ( Text == end_of_file -> halt
   ; catch(judge(Text, Value), _, fail) -> format("+ ~w~n", [Value]), fail
   ; writeln("-"), fail
   ).
