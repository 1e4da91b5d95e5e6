"""The text whose image tests/driver/damaged.py and bench/damaged cut, and in which they flip bits."""

# writes, and ends with an index out of range
TEXT = """program p(output);
var a: array [1..3] of integer;
i: integer;
begin
i := 4;
write('x');
a[i] := 1 end.
"""
# the words of the program itself; the run-time routines follow
OWN_WORDS = 56
HEADER = 28  # bytes before the code
