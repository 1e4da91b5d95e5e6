program hello(output);
begin
  writeln('hello')
end.
