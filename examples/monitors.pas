program monitors;
{ A monitor keeps its variables to itself: its procedures are the only way to
  them, and one process at a time is inside. }
const visitors = 20;

monitor counter;
  export count_one, show;
  var count: integer;

  procedure count_one;
  begin
    count := count + 1
  end;

  procedure show;
  begin
    writeln('counted: ', count)
  end;

begin
  count := 0
end;

process type turnstile;
var i: integer;
begin
  for i := 1 to visitors do counter.count_one
end;

var west, east: turnstile;

begin
  cobegin west; east coend;
  counter.show
end.
