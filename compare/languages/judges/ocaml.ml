(* The judge of OCaml: its lexer, and its conversion of integers. *)
let value = function
  | Parser.INT (digits, None) -> string_of_int (Misc.Int_literal_converter.int digits)
  | Parser.INT (digits, Some 'l') -> Int32.to_string (Misc.Int_literal_converter.int32 digits)
  | Parser.INT (digits, Some 'L') -> Int64.to_string (Misc.Int_literal_converter.int64 digits)
  | Parser.INT (digits, Some 'n') -> Nativeint.to_string (Misc.Int_literal_converter.nativeint digits)
  | Parser.FLOAT (digits, None) -> Printf.sprintf "%h" (float_of_string digits)
  | _ -> failwith "no type has this suffix"

let judge text =
  let buffer = Lexing.from_string text in
  try
    match Lexer.token buffer with
    | (Parser.INT _ | Parser.FLOAT _) as it ->
        Printf.sprintf "%d %s" (Lexing.lexeme_end buffer) (try value it with Failure _ -> "-")
    | _ -> "-"
  with Lexer.Error _ -> "-"

let numbers path =
  let file = open_in_bin path in
  let text = really_input_string file (in_channel_length file) in
  close_in file;
  let buffer = Lexing.from_string text in
  let rec scan found =
    match Lexer.token buffer with
    | Parser.EOF -> List.rev found
    | Parser.INT _ | Parser.FLOAT _ ->
        let first, last = Lexing.lexeme_start buffer, Lexing.lexeme_end buffer in
        let line = List.hd (String.split_on_char '\n' (String.sub text first (min 200 (String.length text - first)))) in
        scan (Printf.sprintf "%d %s" (last - first) line :: found)
    | _ -> scan found
  in
  Lexer.init ();
  try String.concat "\n" (scan []) with Lexer.Error _ -> "- " ^ path

let () =
  Warnings.parse_options false "-a" |> ignore;
  let answer = if Array.length Sys.argv > 1 then numbers else judge in
  try
    while true do
      print_endline (answer (input_line stdin))
    done
  with End_of_file -> ()
