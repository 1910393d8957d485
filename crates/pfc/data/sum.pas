program a; begin writeln(1+2) end.
