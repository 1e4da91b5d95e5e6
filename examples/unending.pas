{ A program that never ends: it is stopped by the limit of steps. }
program unending(output);
var
  tick: Boolean;
begin
  tick := false;
  while true do
    begin
      tick := not tick;
      if tick then
        writeln('tick')
      else
        writeln('tock')
    end
end.
