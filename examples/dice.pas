program dice;
{ random(n) gives a number from 0 to n. The same seed gives the same numbers. }
var i: integer;
begin
  for i := 1 to 10 do write(random(5) + 1, ' ');
  writeln
end.
