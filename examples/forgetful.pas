{ A factorial without its end: each call takes a part of the stack, until there is no more. }
program forgetful(output);

function factorial(n: integer): integer;
begin
  factorial := n * factorial(n - 1)
end;

begin
  write('5! is ');
  writeln(factorial(5):1)
end.
