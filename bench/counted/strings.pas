{ Words of eight letters: made, compared, turned round and put in order. }
program strings(output);
const
  count = 200;
type
  letters = packed array [1..8] of char;
var
  words: array [1..count] of letters;
  word: letters;
  seed, i, j, k: integer;

procedure turn(var word: letters);
var
  i: integer;
  kept: char;
begin
  for i := 1 to 4 do
    begin
      kept := word[i];
      word[i] := word[9 - i];
      word[9 - i] := kept
    end
end;

begin
  seed := 1;
  for i := 1 to count do
    for k := 1 to 8 do
      begin
        seed := (seed * 137 + 71) mod 65536;
        words[i][k] := chr(ord('a') + seed div 256 mod 3)
      end;
  for i := 1 to count do
    turn(words[i]);
  for i := 2 to count do
    begin
      word := words[i];
      words[1] := words[1];
      j := i - 1;
      while (j > 1) and (words[j] > word) do
        begin
          words[j + 1] := words[j];
          j := j - 1
        end;
      words[j + 1] := word
    end;
  writeln(words[2], ' ', words[count])
end.
