program readers_writers;
{ Many may read at a time, and one alone may write. A waiting writer keeps new
  readers out. }
const rounds = 5;
var page: array[1..3] of integer;
    torn: boolean;

monitor lock;
  export start_read, end_read, start_write, end_write;
  var readers, waiting: integer;
      writing: boolean;
      may_read, may_write: condition;

  procedure start_read;
  begin
    if writing or (waiting > 0) then delay(may_read);
    readers := readers + 1;
    resume(may_read)
  end;

  procedure end_read;
  begin
    readers := readers - 1;
    if readers = 0 then resume(may_write)
  end;

  procedure start_write;
  begin
    if writing or (readers > 0) then begin
      waiting := waiting + 1;
      delay(may_write);
      waiting := waiting - 1
    end;
    writing := true
  end;

  procedure end_write;
  begin
    writing := false;
    if empty(may_read) then resume(may_write) else resume(may_read)
  end;
end;

process type reader;
var i, a, b, c: integer;
begin
  for i := 1 to rounds do begin
    lock.start_read;
    a := page[1]; b := page[2]; c := page[3];
    if (a <> b) or (b <> c) then torn := true;
    lock.end_read
  end
end;

process type writer;
var i, k: integer;
begin
  for i := 1 to rounds do begin
    lock.start_write;
    for k := 1 to 3 do page[k] := page[k] + 1;
    lock.end_write
  end
end;

var r1, r2, r3: reader;
    w1, w2: writer;

begin
  cobegin r1; r2; r3; w1; w2 coend;
  writeln('page ', page[1], ' ', page[2], ' ', page[3], ', torn: ', torn)
end.
