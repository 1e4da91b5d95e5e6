{ An enumerated type, stepped through both ways. }
program days(output);
type
  day = (monday, tuesday, wednesday, thursday, friday, saturday, sunday);
var
  today: day;
  working: 0..7;
begin
  working := 0;
  for today := monday to sunday do
    case today of
      monday, tuesday, wednesday, thursday:
        working := working + 1;
      friday:
        begin
          working := working + 1;
          writeln('the last of ', working:1, ' working days')
        end;
      saturday, sunday:
        writeln('day ', ord(today) + 1:1, ' is free: ', today > friday)
    end;
  today := sunday;
  repeat
    today := pred(today)
  until today = wednesday;
  writeln('in the middle: ', ord(today):1, ', then ', ord(succ(today)):1)
end.
