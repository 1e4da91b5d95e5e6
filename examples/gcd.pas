{ The greatest common divisor of two numbers, as Euclid finds it. }
program gcd(output);
var
  a, b, rest: integer;
begin
  a := 1071;
  b := 462;
  while b <> 0 do
    begin
      writeln(a:6, b:6);
      rest := a mod b;
      a := b;
      b := rest
    end;
  writeln('the greatest common divisor is ', a:1)
end.
