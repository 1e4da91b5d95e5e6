{ A conversation by yes and no: each question stands before its answer is looked at. }
program animal(input, output);

function yes(legs: integer): boolean;
var
  answer: char;
begin
  write('has it ', legs:1, ' legs? ');
  readln(answer);
  yes := answer = 'y'
end;

begin
  if yes(2) then
    writeln('a bird')
  else if yes(4) then
    writeln('a dog')
  else if yes(6) then
    writeln('an ant')
  else
    writeln('a spider, or a worm')
end.
