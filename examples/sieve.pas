program sieve;
{ A sieve of processes, each a stage of a pipeline. Stage k knows the k-th
  number that has come through, and lets every such number of its row fall.
  What falls out at the end are the lucky numbers. }
const stages = 6; last = 49;
var c: array[1..7] of channel of integer;
    i: integer;

process source;
var n: integer;
begin
  for n := 0 to last div 2 do c[1] ! 2 * n + 1;
  c[1] ! 0
end;

process type stage(k: integer);
var n, place, step: integer;
begin
  place := 0; step := maxint;
  repeat
    c[k] ? n;
    place := place + 1;
    if place = k + 1 then step := n;
    if (n = 0) or (place mod step <> 0) then c[k + 1] ! n
  until n = 0
end;

process sink;
var n: integer;
begin
  c[stages + 1] ? n;
  while n <> 0 do begin
    write(n, ' ');
    c[stages + 1] ? n
  end;
  writeln
end;

var s: array[1..stages] of stage;

begin
  cobegin
    source; sink;
    for i := 1 to stages do s[i](i)
  coend
end.
