"""The programs that are tried in a page, and what is asked of it."""

from __future__ import annotations

SQUARES = "program squares(output);\nvar k: integer;\nbegin\n  for k := 1 to 5 do\n    writeln(k:3, k * k:5)\nend.\n"
WRONG = "program wrong(output);\nvar k: integer;\nbegin\n  k := 'a';\n  writeln(k)\nend.\n"
ASKS = """program asks(input, output);
var n: integer;
begin
  write('A number: ');
  readln(n);
  writeln('Its square is ', sqr(n):1, '.')
end.
"""
UNENDING = "program unending;\nbegin\n  while true do\nend.\n"
ECHO = """program echo(input, output);
var c: char; n: integer;
begin
  n := 0;
  while not eof do begin read(c); n := n + 1 end;
  writeln(n:1)
end.
"""
FAILS = """program fails(output);
var z: integer;
procedure p;
begin
  writeln(1 div z)
end;
begin
  z := 0;
  p
end.
"""
LISTS = """program lists(output);
var a: array [1..3] of integer; k: integer;
begin
  k := 2;
  a[k] := 7
end.
"""
VALUE = "document.getElementById('text').value"
SELECTED = "(field => field.value.slice(field.selectionStart, field.selectionEnd))(document.getElementById('text'))"
UNDERLINED = "[...document.querySelectorAll('#marks u')].map(mark => mark.parentNode.className + ' ' + mark.textContent)"
WALK = """program walk(input, output);
type colour = (red, green, blue);
     link = ^node;
     node = record key: integer; next: link end;
     point = record x, y: integer end;
var a: array [1..4] of integer; n, k: integer; c: colour; ch: char; ok: boolean;
    s: set of 1..9; p: point; first: link; name: packed array [1..5] of char;

procedure swap(var x, y: integer);
var t: integer;
begin
  t := x;
  x := y;
  y := t
end;

function fact(n: integer): integer;
var k: integer;
begin
  k := n;
  if n <= 1 then fact := 1
  else fact := k * fact(n - 1)
end;

begin
  write('a number: ');
  readln(n);
  k := 2;
  swap(n, k);
  c := blue; ch := 'z'; ok := true; s := [1, 3..5]; p.x := 7; name := 'Pasca';
  for k := 1 to 4 do a[k] := fact(k);
  new(first);
  first^.key := 5;
  repeat
    k := k - 1
  until k <= 2;
  writeln('d\u00e9j\u00e0: ', n:1, k:3)
end.
"""
LONG = """program long(output);
var k, s: integer;
begin
  s := 0;
  for k := 1 to 100000 do
    s := s + 1;
  writeln(s:1)
end.
"""
# (an array that is a row of cells as `why` writes it)
VALUE_OF = """(cell => cell.querySelector('.cells') ?
    '(' + [...cell.firstChild.children].map(each => each.lastChild.textContent).join(', ') + ')' : cell.textContent)"""
TABLES = f"""[...document.querySelectorAll('.frames table')].map(table => table.caption.textContent + ': ' +
    [...table.rows].map(row => row.cells[0].textContent + ' = ' + {VALUE_OF}(row.cells[1])).join(', ')).join('; ')"""
CHANGED = "[...document.querySelectorAll('#frames .changed')].map(each => each.textContent)"
FRAMES = TABLES.replace(".frames", "#frames")
FOCUSED = "document.activeElement.id"
SQUARED = "  1    1\n  2    4\n  3    9\n  4   16\n  5   25\n"
BUBBLE = """program bubble(output);
const first = 3;
type list = array [first..10] of integer;
var a: list; k, n: integer;
begin
  for k := first to 10 do a[k] := 13 - k;
  for n := 9 downto first do
    for k := first to n do
      if a[k] > a[k + 1] then
      begin
        a[k] := a[k] + a[k + 1];
        a[k + 1] := a[k] - a[k + 1];
        a[k] := a[k] - a[k + 1]
      end;
  writeln(a[first])
end.
"""
LINKED = """program linked(output);
type link = ^node;
     node = record key: integer; next: link end;
var first: link; k: integer;
procedure insert(key: integer; var place: link);
var made: link;
begin
  if place = nil then begin new(made); made^.key := key; place := made end
  else if place^.key < key then insert(key, place^.next)
  else begin
    new(made);
    made^.key := key;
    made^.next := place;
    place := made
  end
end;
begin
  first := nil;
  insert(7, first);
  insert(3, first);
  insert(10, first);
  k := first^.key
end.
"""
WIDE_ARRAY = """program wide(output);
var a: array [1..2000] of integer;
begin
  a[7] := 5;
  a[1999] := 6
end.
"""
