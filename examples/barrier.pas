program barrier;
{ A requeue leaves a guarded procedure and waits at another one of the same
  resource: here processes gather, and go on when all are there. }
const n = 3;
var i: integer;

resource barrier;
  export arrive;
  var here: integer;

  guarded procedure go(who: integer) when here = n;
  begin
    write(who, ' goes. ')
  end;

  guarded procedure arrive(who: integer) when here < n;
  begin
    here := here + 1;
    requeue go(who)
  end;
end;

process type runner(who: integer);
begin
  sleep(who);
  barrier.arrive(who)
end;

var r: array[1..n] of runner;

begin
  cobegin for i := 1 to n do r[i](i) coend;
  writeln
end.
