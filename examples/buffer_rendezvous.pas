program buffer_rendezvous;
{ The bounded buffer as a process with entries. A caller waits until its entry
  is accepted, and goes on when the accept's statement has ended. }
const size = 4; items = 20;

process buffer;
entry put(x: integer);
entry take(var x: integer);
var slot: array[0..3] of integer;
    into, count: integer;
begin
  repeat
    select
      when count < size =>
        accept put(x: integer) do slot[into] := x;
        into := (into + 1) mod size; count := count + 1;
    or
      when count > 0 =>
        accept take(var x: integer) do
          x := slot[(into + size - count) mod size];
        count := count - 1;
    or
      terminate
    end
  forever
end;

process producer;
var i: integer;
begin
  for i := 1 to items do buffer.put(i)
end;

process consumer;
var i, x, sum: integer;
begin
  for i := 1 to items do begin buffer.take(x); sum := sum + x end;
  writeln('sum ', sum)
end;

begin
  cobegin buffer; producer; consumer coend
end.
