program cigarette_smokers;
{ An agent lays two of three things on the table; the smoker who has the third
  one takes them. Only the right smoker can be met, so a monitor with one
  condition for each smoker does it. }
const rounds = 6;
var smoked: array[0..2] of integer;
    i: integer;

monitor table;
  export lay, take;
  var missing: integer;
      laid: boolean;
      mine: array[0..2] of condition;
      cleared: condition;

  procedure lay(third: integer);
  begin
    if laid then delay(cleared);
    missing := third; laid := true;
    resume(mine[third])
  end;

  procedure take(me: integer);
  begin
    if not laid or (missing <> me) then delay(mine[me]);
    laid := false;
    resume(cleared)
  end;
end;

process agent;
var k: integer;
begin
  for k := 1 to rounds do table.lay(k mod 3)
end;

process type smoker(me: integer);
var k: integer;
begin
  for k := 1 to rounds div 3 do begin
    table.take(me);
    smoked[me] := smoked[me] + 1
  end
end;

var s: array[0..2] of smoker;

begin
  cobegin agent; for i := 0 to 2 do s[i](i) coend;
  for i := 0 to 2 do write(smoked[i], ' ');
  writeln
end.
