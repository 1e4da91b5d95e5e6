{ Throws on a track of eight fields: the last one leads beyond it, and the index is an error. }
program track(output);
var
  visits: array [1..8] of integer;
  place, throw: integer;

procedure visit(field: integer);
begin
  visits[field] := visits[field] + 1
end;

begin
  for place := 1 to 8 do
    visits[place] := 0;
  place := 0;
  for throw := 1 to 4 do
    begin
      place := place + throw;
      visit(place);
      write(place:3)
    end
end.
