program buffer_channels;
{ The bounded buffer as a process with a channel on each side. It receives
  where it has room, and sends where it holds something. }
const size = 4; items = 20;
var input, output: channel of integer;

process buffer;
var slot: array[0..3] of integer;
    into, count, x: integer;
begin
  repeat
    select
      when count < size =>
        input ? x;
        slot[into] := x; into := (into + 1) mod size; count := count + 1;
    or
      when count > 0 =>
        output ! slot[(into + size - count) mod size];
        count := count - 1;
    or
      terminate
    end
  forever
end;

process producer;
var i: integer;
begin
  for i := 1 to items do input ! i
end;

process consumer;
var i, x, sum: integer;
begin
  for i := 1 to items do begin output ? x; sum := sum + x end;
  writeln('sum ', sum)
end;

begin
  cobegin buffer; producer; consumer coend
end.
