program input;
{ The input is read whole before the run. eof tells whether something is left. }
var n, sum, count: integer; c: char;
begin
  sum := 0; count := 0;
  readln(n);
  while n <> 0 do begin
    sum := sum + n; count := count + 1;
    readln(n)
  end;
  writeln(count, ' numbers, sum ', sum);
  while not eof do begin
    while not eoln do begin read(c); write(c, '.') end;
    readln; writeln
  end
end.
