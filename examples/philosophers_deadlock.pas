program philosophers_deadlock;
{ Five philosophers each take the left fork and then the right one. When each
  holds its left fork, nobody goes on. }
const n = 5;
var fork: array[0..4] of semaphore;
    i: integer;

process type philosopher(me: integer);
begin
  wait(fork[me]);
  wait(fork[(me + 1) mod n]);
  write(me, ' eats. ');
  signal(fork[(me + 1) mod n]);
  signal(fork[me])
end;

var p: array[0..4] of philosopher;

begin
  for i := 0 to n - 1 do initial(fork[i], 1);
  cobegin for i := 0 to n - 1 do p[i](i) coend;
  writeln('all have eaten')
end.
