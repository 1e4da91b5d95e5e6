{ A case statement without the constant that is wanted: an error at the line of the word case. }
program missing(output);
var
  month, days: integer;
begin
  for month := 1 to 13 do
    begin
      case month of
        1, 3, 5, 7, 8, 10, 12:
          days := 31;
        4, 6, 9, 11:
          days := 30;
        2:
          days := 28
      end;
      write(days:3)
    end
end.
