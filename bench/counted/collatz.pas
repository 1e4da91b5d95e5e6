{ The longest way to 1 from a number below 3000. }
program collatz(output);
var
  start, n, steps, longest, best: integer;
begin
  longest := 0;
  best := 0;
  for start := 1 to 2999 do
    begin
      n := start;
      steps := 0;
      while n <> 1 do
        begin
          if odd(n) then
            n := 3 * n + 1
          else
            n := n div 2;
          steps := steps + 1
        end;
      if steps > longest then
        begin
          longest := steps;
          best := start
        end
    end;
  writeln(best:1, ' ', longest:1)
end.
