{ The sum of numbers, one on a line: a line that begins with no number is an error. }
program sum(input, output);
var
  n, total: integer;
begin
  total := 0;
  while not eof do
    begin
      readln(n);
      total := total + n
    end;
  writeln(total:1)
end.
