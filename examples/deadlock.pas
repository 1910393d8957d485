program deadlock;
{ Each process holds one semaphore and waits for the other one. }
var a, b: semaphore;

process p;
begin
  wait(a);
  wait(b);
  signal(b); signal(a)
end;

process q;
begin
  wait(b);
  wait(a);
  signal(a); signal(b)
end;

begin
  initial(a, 1); initial(b, 1);
  cobegin p; q coend;
  writeln('both went through')
end.
