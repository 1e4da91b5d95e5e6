{ The digits of e: long numbers by division and remainder. }
program digits(output);
const
  count = 200;
var
  parts: array [0..count] of integer;
  digit, i, carry: integer;
begin
  for i := 0 to count do
    parts[i] := 1;
  for digit := 1 to count do
    begin
      carry := 0;
      for i := count downto 0 do
        begin
          carry := carry + parts[i] * 10;
          parts[i] := carry mod (i + 2);
          carry := carry div (i + 2)
        end;
      if digit mod 20 = 0 then
        write(carry:1)
    end;
  writeln
end.
