program variables;
{ Constants, variables, assignment, and the operators of integers. }
const dozen = 12;
var eggs, boxes, over: integer; full: boolean; mark: char;
begin
  eggs := 100;
  boxes := eggs div dozen;
  over := eggs mod dozen;
  full := over = 0;
  mark := 'b';
  writeln(eggs, ' eggs fill ', boxes, ' boxes, ', over, ' are left over');
  writeln('all boxes full: ', full);
  writeln('behind ', mark, ' comes ', succ(mark), ', whose number is ', ord(succ(mark)));
  writeln(-7 div 2, ' ', -7 mod 2)
end.
