program stack;
{ Each call takes room, and a process has only so much of it. }

procedure down;
begin
  down
end;

begin
  down
end.
