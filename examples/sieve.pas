{ The sieve of Eratosthenes: an array of truth values. }
program sieve(output);
const
  last = 1000;
var
  crossed: array [2..last] of Boolean;
  number, multiple, count: integer;
begin
  for number := 2 to last do
    crossed[number] := false;
  count := 0;
  for number := 2 to last do
    if not crossed[number] then
      begin
        count := count + 1;
        multiple := number * number;
        while multiple <= last do
          begin
            crossed[multiple] := true;
            multiple := multiple + number
          end
      end;
  writeln(count:1, ' primes up to ', last:1)
end.
