program processes;
{ Between cobegin and coend processes are activated; at coend they start
  together, and main goes on when all have ended. In which order they act is
  the schedule's choice. }

process cat;
var i: integer;
begin
  for i := 1 to 3 do write('cat ')
end;

process dog;
var i: integer;
begin
  for i := 1 to 3 do write('dog ')
end;

begin
  cobegin cat; dog coend;
  writeln
end.
