#!/usr/bin/instantfpc
{ The scanner of Free Pascal's packages. Includes of files are empty. }
{$mode objfpc}{$h+}
uses classes, sysutils, pscanner;

type resolver = class(tbasefileresolver)
  function findsourcefile(const name: string): tlinereader; override;
  function findincludefile(const name: string): tlinereader; override;
end;

var text: tstringlist; scanner: tpascalscanner; line, numbers: string; is_file: boolean;

function resolver.findsourcefile(const name: string): tlinereader; begin result := tstringstreamlinereader.create(name, text.text) end;
function resolver.findincludefile(const name: string): tlinereader; begin result := tstringstreamlinereader.create(name, '') end;

begin
  is_file := paramcount > 0;
  text := tstringlist.create;
  while not eof do begin
    readln(line);
    if is_file then text.loadfromfile(line) else text.text := line;
    scanner := tpascalscanner.create(resolver.create);
    numbers := '';
    try
      scanner.openfile('it');
      repeat
        if scanner.fetchtoken = tknumber then
          with scanner.curtokenpos do
            if filename = 'it' then
              numbers := numbers + format('%d %s'#10, [length(scanner.curtokenstring), copy(text[row - 1], column, 200)]);
      until not is_file or (scanner.curtoken = tkeof);
      if not is_file then if numbers = '' then numbers := '-'#10 else numbers := copy(numbers, 1, pos(' ', numbers) - 1) + #10;
    except
      numbers := '- ' + line + #10;
    end;
    write(numbers);
  end;
end.
