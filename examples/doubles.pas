{ Members of a set lie in 0 to 255: the number that is doubled once more is an error. }
program doubles(output);
var
  n: integer;
  seen: set of 0..255;
begin
  seen := [];
  n := 1;
  repeat
    seen := seen + [n];
    write(n:4);
    n := 2 * n
  until false
end.
