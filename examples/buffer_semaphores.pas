program buffer_semaphores;
{ The bounded buffer with three semaphores: free places, filled places, and
  mutual exclusion. }
const size = 4; items = 20;
var slot: array[0..3] of integer;
    into, from: integer;
    spaces, filled, mutex: semaphore;

process producer;
var i: integer;
begin
  for i := 1 to items do begin
    wait(spaces);
    wait(mutex);
    slot[into] := i; into := (into + 1) mod size;
    signal(mutex);
    signal(filled)
  end
end;

process consumer;
var i, sum: integer;
begin
  for i := 1 to items do begin
    wait(filled);
    wait(mutex);
    sum := sum + slot[from]; from := (from + 1) mod size;
    signal(mutex);
    signal(spaces)
  end;
  writeln('sum ', sum)
end;

begin
  initial(spaces, size); initial(filled, 0); initial(mutex, 1);
  cobegin producer; consumer coend
end.
