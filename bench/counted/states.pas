{ A machine of states: numbers, names and signs in a text that is held in an array. }
program states(output);
const
  length = 4000;
type
  state = (blank, number, name, sign);
var
  text: packed array [1..length] of char;
  seen: array [state] of integer;
  now: state;
  seed, i, turn: integer;
  c: char;
begin
  seed := 1;
  for i := 1 to length do
    begin
      seed := (seed * 137 + 71) mod 65536;
      case seed div 256 mod 8 of
        0, 1, 2: text[i] := ' ';
        3: text[i] := '7';
        4: text[i] := 'x';
        5, 6: text[i] := 'q';
        7: text[i] := '+'
      end
    end;
  for now := blank to sign do
    seen[now] := 0;
  for turn := 1 to 10 do
    begin
      now := blank;
      for i := 1 to length do
        begin
          c := text[i];
          case now of
            blank, sign:
              if c = ' ' then
                now := blank
              else if (c >= '0') and (c <= '9') then
                now := number
              else if (c >= 'a') and (c <= 'z') then
                now := name
              else
                now := sign;
            number:
              if (c < '0') or (c > '9') then
                now := blank;
            name:
              if (c < 'a') or (c > 'z') then
                now := sign
          end;
          seen[now] := seen[now] + 1
        end
    end;
  writeln(seen[blank]:1, ' ', seen[number]:1, ' ', seen[name]:1, ' ', seen[sign]:1)
end.
