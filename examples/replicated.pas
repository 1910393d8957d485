program replicated;
{ A replicated alternative stands for one alternative for each value of its
  variable. }
var c: array[1..3] of channel of integer;
    i: integer;

process type sender(me: integer);
begin
  sleep(4 - me);
  c[me] ! 100 * me
end;

process collector;
var k, n, v: integer;
begin
  for n := 1 to 3 do
    select
      for k := 1 to 3 replicate c[k] ? v;
      write(v, ' from ', k, '; ')
    end;
  writeln
end;

var s: array[1..3] of sender;

begin
  cobegin
    for i := 1 to 3 do s[i](i);
    collector
  coend
end.
