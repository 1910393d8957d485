program process_types;
{ A process type is a process that may stand many times in an array. Each one
  gets its own arguments. }
const n = 4;
var done: array[1..n] of integer;
    i: integer;

process type worker(me, work: integer);
var k: integer;
begin
  for k := 1 to work do done[me] := done[me] + k
end;

var w: array[1..n] of worker;

begin
  cobegin
    for i := 1 to n do w[i](i, 10 * i)
  coend;
  for i := 1 to n do write(done[i], ' ');
  writeln
end.
