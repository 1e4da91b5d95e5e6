{ Sets: unions, differences and members. }
program sets(output);
type
  small = 0..255;
  many = set of small;
var
  evens, threes, both, either: many;
  i, turn, count: integer;
begin
  count := 0;
  for turn := 1 to 40 do
    begin
      evens := [];
      threes := [];
      for i := 0 to 255 do
        begin
          if i mod 2 = 0 then
            evens := evens + [i];
          if i mod 3 = 0 then
            threes := threes + [i]
        end;
      both := evens * threes;
      either := evens + threes - both;
      for i := 0 to 255 do
        if (i in either) and not (i in both) then
          count := count + 1;
      if both <= either then
        count := count + 1000
    end;
  writeln(count:1)
end.
