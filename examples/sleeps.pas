program sleeps;
{ Time is virtual: a thousand actions are a second, and where everybody sleeps
  the clock goes on to the earliest moment. }
process tortoise; begin sleep(30); writeln('tortoise at ', clock) end;
process hare; begin sleep(10); writeln('hare at ', clock) end;

begin
  cobegin tortoise; hare coend;
  writeln('main at ', clock)
end.
