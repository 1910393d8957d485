program philosophers;
{ Five philosophers, of whom four at most may sit at the table: so one of them
  always gets both forks. }
const n = 5; meals = 3;
var fork: array[0..4] of semaphore;
    chairs: semaphore;
    eaten: array[0..4] of integer;
    i: integer;

process type philosopher(me: integer);
var k: integer;
begin
  for k := 1 to meals do begin
    wait(chairs);
    wait(fork[me]);
    wait(fork[(me + 1) mod n]);
    eaten[me] := eaten[me] + 1;
    signal(fork[(me + 1) mod n]);
    signal(fork[me]);
    signal(chairs)
  end
end;

var p: array[0..4] of philosopher;

begin
  for i := 0 to n - 1 do initial(fork[i], 1);
  initial(chairs, n - 1);
  cobegin for i := 0 to n - 1 do p[i](i) coend;
  for i := 0 to n - 1 do write(eaten[i], ' ');
  writeln
end.
