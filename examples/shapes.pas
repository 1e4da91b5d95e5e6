{ Records, with, and strings that are compared. }
program shapes(output);
type
  name = packed array [1..6] of char;
  shape =
    record
      title: name;
      width, height: integer
    end;
var
  shapes: array [1..3] of shape;
  best: shape;
  i: integer;

procedure make(var s: shape; title: name; w, h: integer);
begin
  s.title := title;
  with s do
    begin
      width := w;
      height := h
    end
end;

function area(s: shape): integer;
begin
  with s do
    area := width * height
end;

begin
  make(shapes[1], 'square', 5, 5);
  make(shapes[2], 'plank ', 20, 2);
  make(shapes[3], 'strip ', 30, 1);
  best := shapes[1];
  for i := 2 to 3 do
    if area(shapes[i]) > area(best) then
      best := shapes[i];
  writeln('the largest: ', best.title, area(best):3);
  for i := 1 to 3 do
    if shapes[i].title < 'rather' then
      writeln(shapes[i].title)
end.
