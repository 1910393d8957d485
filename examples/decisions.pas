program decisions;
{ if and case. A case without a label for its value ends the run with a fault. }
var month, days: integer; leap: boolean;
begin
  month := 2; leap := true;
  case month of
    4, 6, 9, 11: days := 30;
    2: if leap then days := 29 else days := 28;
    1, 3, 5, 7, 8, 10, 12: days := 31
  end;
  writeln('month ', month, ' has ', days, ' days');
  if days > 30 then writeln('long')
  else if days = 30 then writeln('of middle length')
  else writeln('short')
end.
