{ A list of records on the heap, kept in order. }
program list(output);
type
  link = ^node;
  node =
    record
      key: integer;
      next: link
    end;
var
  first, walk: link;
  k: integer;

procedure insert(key: integer; var place: link);
var
  made: link;
begin
  if place = nil then
    begin
      new(made);
      made^.key := key;
      place := made
    end
  else if place^.key < key then
    insert(key, place^.next)
  else
    begin
      new(made);
      made^.key := key;
      made^.next := place;
      place := made
    end
end;

begin
  first := nil;
  for k := 1 to 10 do
    insert(k * 7 mod 11, first);
  walk := first;
  while walk <> nil do
    begin
      write(walk^.key:3);
      walk := walk^.next
    end;
  writeln
end.
