{ The mean length of the words of a line: without a word there is none, and the division is an error. }
program average(input, output);
var
  letters, words: integer;

procedure count;
var
  c, last: char;
begin
  last := ' ';
  while not eoln do
    begin
      read(c);
      if c <> ' ' then
        begin
          letters := letters + 1;
          if last = ' ' then
            words := words + 1
        end;
      last := c
    end
end;

function mean(total, number: integer): integer;
begin
  mean := total div number
end;

begin
  letters := 0;
  words := 0;
  count;
  writeln('mean length ', mean(letters, words):1)
end.
