program elevator;
{ An elevator serves calls from floors, and goes back to the ground floor where
  none comes for three seconds. }
process lift;
entry call(floor: integer);
var at, goal: integer; idle: boolean;
begin
  at := 0;
  repeat
    select
      accept call(floor: integer) do goal := floor;
      write('second ', clock, ': from ', at, ' to ', goal);
      if goal > at then sleep(goal - at) else sleep(at - goal);
      at := goal;
      writeln(', there at ', clock)
    or
      timeout 3;
      if at <> 0 then begin
        write('second ', clock, ': back to the ground');
        sleep(at);
        at := 0;
        writeln(', there at ', clock)
      end
      else idle := true
    end
  until idle
end;

process type passenger(start, floor: integer);
begin
  sleep(start);
  lift.call(floor)
end;

var a, b, c: passenger;

begin
  cobegin lift; a(1, 4); b(2, 2); c(14, 5) coend
end.
