program santa_claus;
{ Santa Claus sleeps until all nine reindeer are back, or three elves need
  help. The reindeer come first. }
const reindeer = 9; elves = 6; group = 3;
var i: integer;

process santa;
entry back;
entry help(e: integer);
var home, asking, helped: integer; gone: boolean;
begin
  repeat
    pri select
      accept back do home := home + 1;
      if home = reindeer then begin writeln('the sleigh flies'); gone := true end
    or
      accept help(e: integer) do asking := asking + 1;
      if asking = group then begin
        helped := helped + group; asking := 0;
        writeln(helped, ' elves helped')
      end
    end
  until gone and (helped = elves)
end;

process type deer(d: integer);
begin
  sleep(d);
  santa.back
end;

process type elf(e: integer);
begin
  sleep(2 * e);
  santa.help(e)
end;

var r: array[1..reindeer] of deer;
    h: array[1..elves] of elf;

begin
  cobegin
    santa;
    for i := 1 to reindeer do r[i](i);
    for i := 1 to elves do h[i](i)
  coend;
  writeln('and sleeps again')
end.
