"""Texts that a phase of the compiler refuses, each with the line and the refusal that is reported.

A second fault follows later, or comes before it but is found later, by the checker: it would be reported if the first
one were missed when out of memory.
"""

# by their names
FAULTY = {
    "a bad byte": (
        "line 3: 10 BadByte",
        """program p;
begin
  _ end.
""",
    ),
    "an open string": (
        "line 3: 12 OpenString",
        """program p(output);
begin
  write('a)
end.
""",
    ),
    "no program": (
        "line 4: 20 NotAProgram",
        """program p;
var a: integer;
begin
  if a = 1 then a := 2; else a := 3
end.
""",
    ),
    "too deep": (
        "line 6: 21 TooDeep",
        "program p;\nvar a: integer;\nbegin\n  a :=\n" + "-(" * 498 + "\n-(a)" + ")" * 498 + "\nend.\n",
    ),
    "a real type": (
        "line 3: 22 NotInProfile",
        """program p;
var a: integer;
  b: real;
begin
  a := c
end.
""",
    ),
    "an unknown name": (
        "line 5: 30 Unknown",
        """program p(output);
type r = record f, g: integer end;
var a: r;
procedure q(b: integer);
  begin with a do f := b + h end;
begin
  q(1); write(c);
  with a do f := d
end.
""",
    ),
    "an unknown name before one that is twice": (
        "line 3: 30 Unknown",
        """program p;
const a = 1;
  b = d;
var c, a: char;
begin c := e end.
""",
    ),
    "a name twice": (
        "line 4: 31 Twice",
        """program p;
type r = record f: integer end;
procedure q(a: integer; b,
  A: char); begin end;
procedure s; var a: r; procedure t; begin end;
  procedure t; begin end; begin u end;
begin end.
""",
    ),
    "a use before": (
        "line 3: 32 UsedBefore",
        """program p;
type t =
  array [1..n] of char;
  n = 1..5;
var a: t;
begin end.
""",
    ),
    "a wrong kind": (
        "line 5: 33 WrongKind",
        """program p;
type t = char;
var a: t;
  b:
  a;
  c: b;
begin d := 1 end.
""",
    ),
    "a wrong type": (
        "line 5: 34 WrongType",
        """program p;
var a: integer; b: char;
begin
  a := 1;
  if a + 1 then b := 'x';
  a := b
end.
""",
    ),
    "no assignment": (
        "line 6: 35 NotAssignable",
        """program p;
var a: integer; b: char;
begin
  a := 1;
  a
:=
  'x'; if b then
end.
""",
    ),
    "a bad subrange": (
        "line 3: 36 BadSubrange",
        """program p;
var a: char;
  b: 2
  ..1;
begin a := 1 end.
""",
    ),
    "a large set": (
        "line 4: 37 SetBase",
        """program p;
var a: char;
  b: array [char] of
  set of 0..256;
begin a := 1 end.
""",
    ),
    "a case twice": (
        "line 6: 38 CaseTwice",
        """program p;
var a: integer;
begin
  case a of 1, 2: a := 3;
    3,
  1: end;
  a := 'x'
end.
""",
    ),
    "a control variable": (
        "line 6: 39 ControlVariable",
        """program p;
var a, b: integer;
begin
  for a := 1 to 3 do
    begin b := a;
      a := 2 end;
  b := 'x'
end.
""",
    ),
    "a packed variable": (
        "line 6: 40 PackedVariable",
        """program p;
var a: packed array [1..2] of char;
procedure q(var b: char); begin end;
begin
  q(
  a[1]);
  a := 1
end.
""",
    ),
    "no congruity": (
        "line 6: 41 NotCongruous",
        """program p;
procedure q(procedure a(b: integer; var c: char)); begin end;
procedure r(b: integer; c: char); begin end;
begin
  q(
  r);
  s
end.
""",
    ),
    "an open heading": (
        "line 3: 42 ForwardOpen",
        """program p;
procedure a; forward;
procedure b;
  forward;
procedure c; procedure b; begin end; begin end;
procedure a; begin end;
procedure d; forward;
begin end.
""",
    ),
    "no result": (
        "line 4: 43 NoResultAssigned",
        """program p;
function f: integer;
  begin f := 1 end;
function g:
  integer; begin end;
begin end.
""",
    ),
    "a large type": (
        "line 3: 45 Limit",
        """program p;
type t = array [1..1000] of char;
  u =
  array [0..100] of t;
var a: t;
begin a := 1 end.
""",
    ),
    "no output": (
        "line 5: 44 NoInputOutput",
        """program p(input);
var a: integer;
begin
  read(a);
  write(a)
end.
""",
    ),
}
