{ The sieve of Eratosthenes, over and over. }
program sieve(output);
const
  last = 10000;
var
  crossed: array [2..last] of Boolean;
  number, multiple, count, turn: integer;
begin
  for turn := 1 to 5 do
    begin
      for number := 2 to last do
        crossed[number] := false;
      count := 0;
      for number := 2 to last do
        if not crossed[number] then
          begin
            count := count + 1;
            multiple := number + number;
            while multiple <= last do
              begin
                crossed[multiple] := true;
                multiple := multiple + number
              end
          end
    end;
  writeln(count:1)
end.
