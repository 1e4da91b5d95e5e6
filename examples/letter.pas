{ Strings one after another: each write goes on where the last one ended. }
program letter(output);
begin
  writeln('Dear reader,');
  writeln;
  write('an apostrophe inside a string is written twice: ');
  writeln('it''s');
  writeln('yours, ', 'Fonkjuld')
end.
