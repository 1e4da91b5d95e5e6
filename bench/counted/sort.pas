{ Quicksort of numbers that look drawn. }
program sort(output);
const
  count = 5000;
type
  list = array [1..count] of integer;
var
  numbers: list;
  seed, i, sum: integer;

function random: integer;
begin
  seed := (seed * 137 + 71) mod 65536;
  random := seed
end;

procedure quicksort(var a: list; first, last: integer);
var
  low, high, middle, kept: integer;
begin
  low := first;
  high := last;
  middle := a[(first + last) div 2];
  repeat
    while a[low] < middle do
      low := low + 1;
    while middle < a[high] do
      high := high - 1;
    if low <= high then
      begin
        kept := a[low];
        a[low] := a[high];
        a[high] := kept;
        low := low + 1;
        high := high - 1
      end
  until low > high;
  if first < high then
    quicksort(a, first, high);
  if low < last then
    quicksort(a, low, last)
end;

begin
  seed := 1;
  for i := 1 to count do
    numbers[i] := random;
  quicksort(numbers, 1, count);
  sum := 0;
  for i := 1 to count do
    sum := (sum * 3 + numbers[i]) mod 65536;
  writeln(sum:1)
end.
