program loops;
{ while tests first, repeat tests last, for counts. }
var n, i, sum: integer;
begin
  n := 27; i := 0;
  while n <> 1 do begin
    if odd(n) then n := 3 * n + 1 else n := n div 2;
    i := i + 1
  end;
  writeln('27 comes to 1 in ', i, ' steps');
  repeat n := n * 2 until n > 1000;
  writeln('the first power of 2 above 1000 is ', n);
  sum := 0;
  for i := 1 to 100 do sum := sum + i;
  writeln('1 + 2 + .. + 100 = ', sum);
  for i := 3 downto 1 do write(i, ' ');
  writeln('go')
end.
