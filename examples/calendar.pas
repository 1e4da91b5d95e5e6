program calendar(input, output);
{ the calendar of a month of the years 1583 to 9999, when the Gregorian calendar holds }
const
  monday = 0;
  first = 1583;
  last = 9999;
type
  month = 1..12;
var
  year, wanted, day, column: integer;

function isleap(year: integer): Boolean;
begin
  isleap := (year mod 4 = 0) and ((year mod 100 <> 0) or (year mod 400 = 0))
end;

function days(m: month; year: integer): integer;
begin
  case m of
    1, 3, 5, 7, 8, 10, 12: days := 31;
    4, 6, 9, 11: days := 30;
    2: days := 28 + ord(isleap(year))
  end
end;

{ the weekday of the first of a month, counted from the first of January 1583, which was a Saturday }
function weekday(m: month; year: integer): integer;
var
  total, y: integer;
  k: month;
begin
  total := 5;
  for y := first to year - 1 do
    total := total + 365 + ord(isleap(y));
  for k := 1 to 12 do
    if k < m then
      total := total + days(k, year);
  weekday := total mod 7
end;

begin
  write('year and month: ');
  read(year, wanted);
  if (year < first) or (year > last) or (wanted < 1) or (wanted > 12) then
    writeln('there is no such month')
  else begin
    writeln(' Mo Tu We Th Fr Sa Su');
    column := weekday(wanted, year);
    if column > monday then
      write(' ': 3 * column);
    for day := 1 to days(wanted, year) do begin
      write(day: 3);
      column := column + 1;
      if (column = 7) and (day < days(wanted, year)) then begin
        writeln;
        column := 0
      end
    end;
    writeln
  end
end.
