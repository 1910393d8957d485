program channels;
{ A sender and a receiver meet at a channel, and the message goes over in the
  same action. A channel of synchronous carries no message at all. }
var numbers: channel of integer;
    done: channel of synchronous;

process squares;
var i: integer;
begin
  for i := 1 to 5 do numbers ! i * i;
  done ! any
end;

process printer;
var i, n: integer;
begin
  for i := 1 to 5 do begin numbers ? n; write(n, ' ') end;
  done ? any;
  writeln('done')
end;

begin
  cobegin squares; printer coend
end.
