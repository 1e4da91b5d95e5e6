{ Factorials, until one is above maxint: then the program ends with an error, at the line of the product. }
program overflow(output);
var
  n, product: integer;
begin
  n := 0;
  product := 1;
  while true do
    begin
      writeln(n:2, product:11);
      n := n + 1;
      product :=
        product * n
    end
end.
