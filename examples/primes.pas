{ The primes below 100, ten in a line: each number is divided by all up to its root. }
program primes(output);
const
  limit = 100;
var
  number, divisor, found: integer;
  prime: Boolean;
begin
  found := 0;
  for number := 2 to limit - 1 do
    begin
      prime := true;
      divisor := 2;
      while prime and (sqr(divisor) <= number) do
        begin
          prime := number mod divisor <> 0;
          divisor := divisor + 1
        end;
      if prime then
        begin
          write(number:4);
          found := found + 1;
          if found mod 10 = 0 then
            writeln
        end
    end;
  writeln;
  writeln(found:1, ' primes')
end.
