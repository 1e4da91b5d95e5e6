{ Records and pointers: a tree of numbers, in which they are sought. }
program tree(output);
type
  link = ^node;
  node =
    record
      key, times: integer;
      left, right: link
    end;
var
  root: link;
  seed, i, deepest: integer;

procedure insert(key: integer);
var
  walk, made: link;
  done: Boolean;
begin
  new(made);
  made^.key := key;
  made^.times := 1;
  made^.left := nil;
  made^.right := nil;
  if root = nil then
    root := made
  else
    begin
      walk := root;
      done := false;
      repeat
        if key = walk^.key then
          begin
            walk^.times := walk^.times + 1;
            done := true
          end
        else if key < walk^.key then
          if walk^.left = nil then
            begin
              walk^.left := made;
              done := true
            end
          else
            walk := walk^.left
        else if walk^.right = nil then
          begin
            walk^.right := made;
            done := true
          end
        else
          walk := walk^.right
      until done
    end
end;

function depth(at: link): integer;
var
  left, right: integer;
begin
  if at = nil then
    depth := 0
  else
    begin
      left := depth(at^.left);
      right := depth(at^.right);
      if left > right then
        depth := left + 1
      else
        depth := right + 1
    end
end;

begin
  root := nil;
  seed := 1;
  for i := 1 to 3000 do
    begin
      seed := (seed * 137 + 71) mod 65536;
      insert(seed)
    end;
  deepest := depth(root);
  writeln(deepest:1)
end.
