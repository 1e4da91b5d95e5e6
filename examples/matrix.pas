{ The product of two matrices, passed by value and given back in a variable parameter. }
program matrix(output);
const
  size = 3;
type
  index = 1..size;
  square = array [index, index] of integer;
var
  a, b, c: square;
  i, j: index;

procedure multiply(x, y: square; var z: square);
var
  i, j, k: index;
begin
  for i := 1 to size do
    for j := 1 to size do
      begin
        z[i, j] := 0;
        for k := 1 to size do
          z[i, j] := z[i, j] + x[i, k] * y[k, j]
      end
end;

begin
  for i := 1 to size do
    for j := 1 to size do
      begin
        a[i, j] := i + j;
        b[i, j] := i * j
      end;
  multiply(a, b, c);
  for i := 1 to size do
    begin
      for j := 1 to size do
        write(c[i, j]:5);
      writeln
    end
end.
