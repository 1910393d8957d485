program overflow;
{ A fault ends the run and is told with its process and its line. }
var n: integer;
begin
  n := 1;
  repeat
    write(n, ' ');
    n := n * 100
  forever
end.
