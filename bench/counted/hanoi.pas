{ The towers of Hanoi: a procedure that calls itself. }
program hanoi(output);
var
  moves: integer;

procedure move(discs: integer; source, spare, target: char);
begin
  if discs > 0 then
    begin
      move(discs - 1, source, target, spare);
      moves := moves + 1;
      move(discs - 1, spare, source, target)
    end
end;

begin
  moves := 0;
  move(16, 'a', 'b', 'c');
  writeln(moves:1)
end.
