program mutual_exclusion;
{ The turnstiles again, with a semaphore around the critical section. }
const visitors = 20;
var count: integer;
    mutex: semaphore;

process type turnstile;
var i: integer;
begin
  for i := 1 to visitors do begin
    wait(mutex);
    count := count + 1;
    signal(mutex)
  end
end;

var west, east: turnstile;

begin
  initial(mutex, 1);
  cobegin west; east coend;
  writeln('visitors: ', 2 * visitors, ', counted: ', count)
end.
