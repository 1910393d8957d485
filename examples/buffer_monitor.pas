program buffer_monitor;
{ The bounded buffer as a monitor: one process at a time is inside, and
  conditions are where it waits for what is missing. }
const size = 4; items = 20;

monitor buffer;
  export put, take;
  var slot: array[0..3] of integer;
      into, count: integer;
      not_full, not_empty: condition;

  procedure put(x: integer);
  begin
    if count = size then delay(not_full);
    slot[into] := x; into := (into + 1) mod size; count := count + 1;
    resume(not_empty)
  end;

  procedure take(var x: integer);
  begin
    if count = 0 then delay(not_empty);
    x := slot[(into + size - count) mod size]; count := count - 1;
    resume(not_full)
  end;
end;

process producer;
var i: integer;
begin
  for i := 1 to items do buffer.put(i)
end;

process consumer;
var i, x, sum: integer;
begin
  for i := 1 to items do begin buffer.take(x); sum := sum + x end;
  writeln('sum ', sum)
end;

begin
  cobegin producer; consumer coend
end.
