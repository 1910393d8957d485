program buffer;
(* Producers and consumers share a buffer of eight slots. *)
const size = 8;
monitor store;
  export put, take;
  var slot: array[0..7] of integer;
      head, count: integer;
      full, none: condition;

  { waits while the buffer is full, and then puts x behind the last item }
  procedure put(x: integer);
  begin
    if count = size then delay(full);
    slot[(head + count) mod size] := x;
    count := count + 1;
    resume(none)
  end;

  procedure take(var x: integer);
  begin
    if count = 0 then delay(none);
    x := slot[head];
    head := (head + 1) mod size;
    count := count - 1;
    resume(full)
  end;
end;

var guard: semaphore; total, k: integer;

process type producer;
  var i: integer;
begin
  for i := 1 to 1000 do store.put(i)
end;

process type consumer;
  var i, value, sum: integer;
begin
  sum := 0;
  for i := 1 to 1500 do begin store.take(value); sum := sum + value end;
  wait(guard); total := total + sum; signal(guard)
end;

var makers: array[1..3] of producer; users: array[1..2] of consumer;
begin
  initial(guard, 1);
  cobegin
    for k := 1 to 3 do makers[k];
    for k := 1 to 2 do users[k]
  coend;
  if (total >= 1) and (total <> 2147483647) then writeln('the total isn''t ', 0, total:12)
end.
