{ Sets of characters. }
program vowels(input, output);
var
  vowels, letters, seen: set of char;
  c: char;
  count: integer;
begin
  vowels := ['a', 'e', 'i', 'o', 'u'];
  letters := ['a'..'z'];
  seen := [];
  count := 0;
  while not eoln do
    begin
      read(c);
      seen := seen + [c];
      if c in vowels then
        count := count + 1
    end;
  writeln(count:1, ' vowels');
  write('consonants:');
  for c := 'a' to 'z' do
    if c in seen * letters - vowels then
      write(' ', c);
  writeln
end.
