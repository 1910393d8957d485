program rendezvous;
{ A process calls an entry of another one. The two meet at the accept, whose
  statement runs while the caller waits; a var parameter brings the answer. }
process server;
entry square(n: integer; var r: integer);
begin
  repeat
    select
      accept square(n: integer; var r: integer) do r := n * n;
    or
      terminate
    end
  forever
end;

process type client(n: integer);
var answer: integer;
begin
  server.square(n, answer);
  sleep(n);
  write(n, ' squared is ', answer, '; ')
end;

var a, b: client;

begin
  cobegin server; a(3); b(12) coend;
  writeln
end.
