program arrays;
{ Arrays and records hold several values under one name. Assigning a whole one
  copies it. }
type point = record x, y: integer end;
var square: array[1..3, 1..3] of integer;
    count: array['a'..'c'] of integer;
    here, there: point;
    i, j: integer;
begin
  for i := 1 to 3 do
    for j := 1 to 3 do square[i, j] := i * j;
  for i := 1 to 3 do begin
    for j := 1 to 3 do write(square[i, j]:3);
    writeln
  end;
  count['b'] := 2;
  writeln(count['a'], count['b'], count['c']);
  here.x := 1; here.y := 2;
  there := here;
  there.x := 10;
  writeln(here.x, ',', here.y, ' ', there.x, ',', there.y)
end.
