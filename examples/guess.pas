{ A conversation: each question stands before its answer is looked at. }
program guess(input, output);
const
  secret = 42;
var
  tries, answer: integer;
begin
  tries := 0;
  repeat
    write('your guess? ');
    readln(answer);
    tries := tries + 1;
    if answer < secret then
      writeln('more')
    else if answer > secret then
      writeln('less')
  until answer = secret;
  writeln('found in ', tries:1, ' tries')
end.
