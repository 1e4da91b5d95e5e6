{ A variable of a subrange keeps its bounds: the assignment that would leave them is an error. }
program outside(output);
var
  floor: 1..4;
begin
  floor := 1;
  repeat
    writeln('floor ', floor:1);
    floor := floor + 1
  until false
end.
