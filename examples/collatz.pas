{ Halve an even number, take an odd one three times and add 1: which start below 1000 takes the most steps to come to 1? }
program collatz(output);
var
  start, number, steps, longest, most: integer;
begin
  most := 0;
  longest := 1;
  for start := 1 to 999 do
    begin
      number := start;
      steps := 0;
      while number <> 1 do
        begin
          if odd(number) then
            number := 3 * number + 1
          else
            number := number div 2;
          steps := steps + 1
        end;
      if steps > most then
        begin
          most := steps;
          longest := start
        end
    end;
  writeln(longest:1, ' takes ', most:1, ' steps')
end.
