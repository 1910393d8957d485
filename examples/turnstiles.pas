program turnstiles;
{ The lost update, many times: two gates of a garden count their visitors in
  one variable. }
const visitors = 20;
var count: integer;

process type turnstile;
var i: integer;
begin
  for i := 1 to visitors do count := count + 1
end;

var west, east: turnstile;

begin
  cobegin west; east coend;
  writeln('visitors: ', 2 * visitors, ', counted: ', count)
end.
