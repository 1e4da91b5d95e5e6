{ Square roots in whole numbers, as Newton finds them: the greatest number whose square is not above the given one. }
program root(output);
var
  power, number, guess, next: integer;
begin
  number := 1;
  for power := 0 to 9 do
    begin
      guess := number;
      next := (guess + 1) div 2;
      while next < guess do
        begin
          guess := next;
          next := (guess + number div guess) div 2
        end;
      writeln(number:11, guess:8);
      if power < 9 then
        number := number * 10
    end
end.
