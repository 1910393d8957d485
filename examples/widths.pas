program widths;
{ What is written, and with which width. A width puts blanks before a value
  and cuts nothing. }
begin
  writeln(7, ' ', -7, ' ', 'a', ' ', true);
  writeln('[', 7:4, ']');
  writeln('[', 12345:4, ']');
  writeln('[', 'ab':4, ']');
  writeln('[', true:6, ']')
end.
