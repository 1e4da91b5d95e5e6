{ A filter: counts the lines, the words and the characters of its input. }
program count(input, output);
var
  lines, words, characters: integer;
  c: char;
  inside: Boolean;
begin
  lines := 0;
  words := 0;
  characters := 0;
  while not eof do
    begin
      inside := false;
      while not eoln do
        begin
          read(c);
          characters := characters + 1;
          if c = ' ' then
            inside := false
          else if not inside then
            begin
              inside := true;
              words := words + 1
            end
        end;
      readln;
      lines := lines + 1
    end;
  writeln(lines:1, ' lines, ', words:1, ' words, ', characters:1, ' characters')
end.
