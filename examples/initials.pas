{ The first letters of three lines: where the input has fewer, reading is an error. }
program initials(input, output);
var
  line: integer;
  c: char;
begin
  for line := 1 to 3 do
    begin
      readln(c);
      write(c)
    end;
  writeln
end.
