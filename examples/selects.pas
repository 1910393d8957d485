program selects;
{ A select waits at several places at once: here at two channels, and for a
  second at most. }
var left, right: channel of char;

process ones;
begin
  left ! '1'; sleep(2); left ! '1'
end;

process twos;
begin
  sleep(1); right ! '2'
end;

process listener;
var c: char; quiet: boolean;
begin
  repeat
    select
      left ? c; write('left ', c, '; ')
    or
      right ? c; write('right ', c, '; ')
    or
      timeout 3; quiet := true
    end
  until quiet;
  writeln('quiet')
end;

begin
  cobegin ones; twos; listener coend
end.
