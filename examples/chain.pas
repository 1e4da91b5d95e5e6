{ The third of two: following a list beyond its end is an error, and the calls that are open there are told. }
program chain(output);
type
  link = ^cell;
  cell = record
    letter: char;
    next: link
  end;
var
  first: link;

procedure add(c: char);
var
  fresh: link;
begin
  new(fresh);
  fresh^.letter := c;
  fresh^.next := first;
  first := fresh
end;

function nth(list: link; n: integer): char;
begin
  if n = 1 then
    nth := list^.letter
  else
    nth := nth(list^.next, n - 1)
end;

begin
  first := nil;
  add('b');
  add('a');
  writeln(nth(first, 1), nth(first, 2));
  writeln(nth(first, 3))
end.
