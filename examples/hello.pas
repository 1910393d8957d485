program hello;
{ The smallest program that says something. }
begin
  writeln('hello');
  write('one line, ');
  writeln('two pieces')
end.
