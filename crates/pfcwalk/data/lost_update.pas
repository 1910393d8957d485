program lost_update;
{ Each process adds 1 to x. Reading x and writing it are two actions, so one
  addition can be lost between them. }
var x: integer;

process p; begin x := x + 1 end;
process q; begin x := x + 1 end;

begin
  cobegin p; q coend;
  writeln(x)
end.
