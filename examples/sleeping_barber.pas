program sleeping_barber;
{ A barber sleeps while nobody is there. A customer who finds no free chair
  leaves, and comes again a second later. }
const chairs = 2; customers = 6;
var waiting, left: integer;
    mutex, arrived, ready, finished: semaphore;
    i: integer;

process barber;
var k: integer;
begin
  for k := 1 to customers do begin
    wait(arrived);
    wait(mutex);
    waiting := waiting - 1;
    signal(mutex);
    signal(ready);
    { he shaves }
    signal(finished)
  end
end;

process type customer;
var shaved: boolean;
begin
  repeat
    wait(mutex);
    if waiting < chairs then begin
      waiting := waiting + 1;
      signal(mutex);
      signal(arrived);
      wait(ready);
      wait(finished);
      shaved := true
    end
    else begin
      left := left + 1;
      signal(mutex);
      sleep(1)
    end
  until shaved
end;

var c: array[1..customers] of customer;

begin
  initial(mutex, 1); initial(arrived, 0);
  initial(ready, 0); initial(finished, 0);
  cobegin barber; for i := 1 to customers do c[i] coend;
  writeln(customers, ' are shaved, and found no chair ', left, ' times')
end.
