{ Pascal's triangle: each number from the one before it in its row. }
program triangle(output);
const
  rows = 10;
var
  n, k, entry: integer;
begin
  for n := 0 to rows - 1 do
    begin
      write(' ':3 * (rows - n));
      entry := 1;
      for k := 0 to n do
        begin
          write(entry:6);
          entry := entry * (n - k) div (k + 1)
        end;
      writeln
    end
end.
