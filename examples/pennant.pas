{ Stars in narrower and narrower fields: a field narrower than one character is an error. }
program pennant(output);
var
  width: integer;
begin
  for width := 3 downto 0 do
    writeln('*':width)
end.
