program buffer_resource;
{ The bounded buffer as a resource: a guarded procedure is entered only where
  its guard is true, so nobody has to be woken by hand. }
const size = 4; items = 20;

resource buffer;
  export put, take;
  var slot: array[0..3] of integer;
      into, count: integer;

  guarded procedure put(x: integer) when count < size;
  begin
    slot[into] := x; into := (into + 1) mod size; count := count + 1
  end;

  guarded procedure take(var x: integer) when count > 0;
  begin
    x := slot[(into + size - count) mod size]; count := count - 1
  end;
end;

process producer;
var i: integer;
begin
  for i := 1 to items do buffer.put(i)
end;

process consumer;
var i, x, sum: integer;
begin
  for i := 1 to items do begin buffer.take(x); sum := sum + x end;
  writeln('sum ', sum)
end;

begin
  cobegin producer; consumer coend
end.
