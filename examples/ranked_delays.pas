program ranked_delays;
{ delay(c, n) waits on a condition with a rank: the least rank is resumed
  first. Here a clock wakes sleepers in the order of their moments. }
monitor alarm;
  export sleep_until, tick;
  var sleepers: condition;

  procedure sleep_until(moment: integer);
  begin
    delay(sleepers, moment);
    write(moment, ' ')
  end;

  procedure tick;
  begin
    while not empty(sleepers) do resume(sleepers)
  end;
end;

process type sleeper(moment: integer);
begin
  alarm.sleep_until(moment)
end;

var s: array[1..4] of sleeper;

process bell;
begin
  sleep(5);
  alarm.tick
end;

begin
  cobegin s[1](40); s[2](10); s[3](30); s[4](20); bell coend;
  writeln
end.
