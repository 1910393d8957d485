program races;
{ Two writes of x. Where p passes the gate first, the semaphore orders them;
  where q does, nothing orders them but chance. }
var x: integer;
    gate: semaphore;

process p;
begin
  x := 1;
  wait(gate); signal(gate)
end;

process q;
begin
  wait(gate); signal(gate);
  x := 2
end;

begin
  initial(gate, 1);
  cobegin p; q coend;
  writeln(x)
end.
