% The reader of SWI-Prolog.
:- use_module(library(prolog_source)).

% A number is From-To in the positions of a term.
leaf(From-To, From, To) :- integer(From), !.
leaf(Positions, From, To) :- compound(Positions), arg(_, Positions, It), leaf(It, From, To).

% What is in front of a wrong token is read again.
size(Text, Size) :-
    string_concat(Text, " .", Clause), open_string(Clause, In),
    catch((read_term(In, _, [subterm_positions(Positions)]), once(leaf(Positions, 0, Size))),
          error(syntax_error(Error), stream(_, _, Place, _)),
          ( wrong(Error, Text, Place, At), string_length(Text, Length), End is min(At, Length - 1), End > 0,
            sub_string(Text, 0, End, _, Front), size(Front, Size) )).

% The place of a quote is that of the last one.
wrong(end_of_file_in_quoted(Quote), Text, _, At) :-
    !, findall(It, sub_string(Text, It, _, _, Quote), Places), last(Places, At).
wrong(_, _, At, At).

numbers(Path) :-
    read_file_to_string(Path, Text, [encoding(octet)]),
    open(Path, read, In, [encoding(octet)]),
    repeat, prolog_read_source_term(In, Term, _, [subterm_positions(Positions), syntax_errors(error)]),
    forall(leaf(Positions, From, To), number(Text, From, To)),
    Term == end_of_file, !.

number(Text, From, To) :-
    Size is To - From, sub_string(Text, From, Size, Rest, It), split_string(It, "", "+- \n\t", [Bare]),
    string_code(1, Bare, Code), code_type(Code, digit), !,
    string_length(Bare, Length), Back is Rest + Length, sub_string(Text, _, Back, 0, Line),
    split_string(Line, "\n", "", [First | _]), format("~w ~w~n", [Length, First]).
number(_, _, _).

answer([files], Path) :- catch(numbers(Path), _, format("- ~w~n", [Path])).
answer([], Text) :- catch(size(Text, Size), _, fail) -> writeln(Size) ; writeln("-").

:- set_stream(user_input, encoding(octet)), set_stream(user_output, encoding(octet)),
   current_prolog_flag(argv, Mode),
   repeat, read_line_to_string(user_input, Text),
   ( Text == end_of_file -> halt ; ignore(answer(Mode, Text)), fail ).
