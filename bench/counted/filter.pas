{ A filter of text: each word begins with a capital, and runs of blanks become one. }
program filter(input, output);
var
  c, before: char;
  words: integer;

function capital(c: char): char;
begin
  if (c >= 'a') and (c <= 'z') then
    capital := chr(ord(c) - ord('a') + ord('A'))
  else
    capital := c
end;

begin
  words := 0;
  while not eof do
    begin
      before := ' ';
      while not eoln do
        begin
          read(c);
          if before = ' ' then
            begin
              if c <> ' ' then
                begin
                  words := words + 1;
                  write(capital(c))
                end
            end
          else
            write(c);
          before := c
        end;
      readln;
      writeln
    end;
  writeln(words:1)
end.
