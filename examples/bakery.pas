program bakery;
{ Mutual exclusion of many processes with shared variables alone (Lamport's
  bakery): who comes in takes a number, and the lowest number is served. }
const n = 4; turns = 5;
var choosing: array[1..n] of boolean;
    number: array[1..n] of integer;
    inside, count: integer;
    broken: boolean;

process type customer(me: integer);
var i, j, highest, theirs: integer; first: boolean;
begin
  for i := 1 to turns do begin
    choosing[me] := true;
    highest := 0;
    for j := 1 to n do begin
      theirs := number[j];
      if theirs > highest then highest := theirs
    end;
    number[me] := highest + 1;
    choosing[me] := false;
    for j := 1 to n do begin
      while choosing[j] do null;
      repeat
        theirs := number[j];
        first := (theirs = 0) or (theirs > number[me])
                 or (theirs = number[me]) and (j >= me)
      until first
    end;
    inside := inside + 1;
    if inside <> 1 then broken := true;
    count := count + 1;
    inside := inside - 1;
    number[me] := 0
  end
end;

var c: array[1..n] of customer;
    k: integer;

begin
  cobegin for k := 1 to n do c[k](k) coend;
  writeln(count, ' times inside, broken: ', broken)
end.
