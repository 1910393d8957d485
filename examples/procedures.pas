program procedures;
{ A procedure does something, a function gives a value. A var parameter is the
  caller's own variable, any other one a copy. }
var a, b: integer;

  procedure swap(var x, y: integer);
  var t: integer;
  begin
    t := x; x := y; y := t
  end;

  function power(base, exponent: integer): integer;
  begin
    if exponent = 0 then power := 1
    else power := base * power(base, exponent - 1)
  end;

  procedure towers(n: integer; from, onto, over: char);
  begin
    if n > 0 then begin
      towers(n - 1, from, over, onto);
      write(from, onto, ' ');
      towers(n - 1, over, onto, from)
    end
  end;

begin
  a := 3; b := 5;
  swap(a, b);
  writeln(a, ' ', b);
  writeln('2 to the 10th is ', power(2, 10));
  towers(3, 'a', 'b', 'c');
  writeln
end.
