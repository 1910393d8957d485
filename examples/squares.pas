program squares;
var i, sum: integer; t: array[1..5] of integer;
begin
  for i := 1 to 5 do begin t[i] := sqr(i); sum := sum + t[i] end;
  writeln('sum', sum:5);
  case sum mod 3 of
    0: writeln('a third is ', sum div 3);
    1, 2: writeln(sum, ' is no multiple of 3')
  end
end.
