{ The product of two matrices. }
program matrix(output);
const
  size = 40;
type
  index = 1..size;
  square = array [index, index] of integer;
var
  a, b, c: square;
  i, j: index;
  trace: integer;

procedure multiply(var x, y, z: square);
var
  i, j, k: index;
  sum: integer;
begin
  for i := 1 to size do
    for j := 1 to size do
      begin
        sum := 0;
        for k := 1 to size do
          sum := sum + x[i, k] * y[k, j];
        z[i, j] := sum
      end
end;

begin
  for i := 1 to size do
    for j := 1 to size do
      begin
        a[i, j] := i + j;
        b[i, j] := i - j
      end;
  multiply(a, b, c);
  trace := 0;
  for i := 1 to size do
    trace := trace + c[i, i];
  writeln(trace:1)
end.
