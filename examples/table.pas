{ The multiplication table, in columns. }
program table(output);
var
  row, column: 1..10;
begin
  for row := 1 to 10 do
    begin
      for column := 1 to 10 do
        write(row * column:4);
      writeln
    end
end.
