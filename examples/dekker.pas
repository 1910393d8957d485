program dekker;
{ Mutual exclusion of two processes with shared variables alone (Dekker). }
const turns = 10;
var wants: array[1..2] of boolean;
    turn, inside, count: integer;
    broken: boolean;

process type contender(me, other: integer);
var i: integer;
begin
  for i := 1 to turns do begin
    wants[me] := true;
    while wants[other] do
      if turn = other then begin
        wants[me] := false;
        while turn = other do null;
        wants[me] := true
      end;
    inside := inside + 1;
    if inside <> 1 then broken := true;
    count := count + 1;
    inside := inside - 1;
    turn := other;
    wants[me] := false
  end
end;

var p, q: contender;

begin
  turn := 1;
  cobegin p(1, 2); q(2, 1) coend;
  writeln(count, ' times inside, broken: ', broken)
end.
