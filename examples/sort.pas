{ Quicksort: a variable parameter that is an array, and a routine within a routine. }
program sort(output);
const
  count = 20;
type
  list = array [1..count] of integer;
var
  numbers: list;
  seed, i: integer;

function random: integer;
begin
  seed := (seed * 137 + 71) mod 1000;
  random := seed
end;

procedure quicksort(var a: list; first, last: integer);
var
  low, high, middle: integer;

  procedure exchange(i, j: integer);
  var
    kept: integer;
  begin
    kept := a[i];
    a[i] := a[j];
    a[j] := kept
  end;

begin
  low := first;
  high := last;
  middle := a[(first + last) div 2];
  repeat
    while a[low] < middle do
      low := low + 1;
    while middle < a[high] do
      high := high - 1;
    if low <= high then
      begin
        exchange(low, high);
        low := low + 1;
        high := high - 1
      end
  until low > high;
  if first < high then
    quicksort(a, first, high);
  if low < last then
    quicksort(a, low, last)
end;

begin
  seed := 1;
  for i := 1 to count do
    numbers[i] := random;
  quicksort(numbers, 1, count);
  for i := 1 to count do
    write(numbers[i]:4);
  writeln
end.
