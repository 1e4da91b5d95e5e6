{ A cipher that moves each letter by thirteen places, as a table. }
program letters(output);
var
  letter: char;
begin
  for letter := 'a' to 'z' do
    write(letter);
  writeln;
  for letter := 'a' to 'z' do
    if letter <= 'm' then
      write(chr(ord(letter) + 13))
    else
      write(chr(ord(letter) - 13));
  writeln
end.
