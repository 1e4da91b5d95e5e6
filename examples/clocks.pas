{ What 17 o'clock is on smaller and smaller clocks: one without an hour is an error. }
program clocks(output);
var
  hours: integer;
begin
  for hours := 3 downto 0 do
    writeln(17 mod hours:2)
end.
