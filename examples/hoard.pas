{ A list without an end: each of its cells takes a part of the heap, until there is no more. }
program hoard(output);
type
  link = ^cell;
  cell = record
    number: integer;
    next: link
  end;
var
  first, fresh: link;
begin
  first := nil;
  write('and one more');
  repeat
    new(fresh);
    fresh^.next := first;
    first := fresh
  until false
end.
