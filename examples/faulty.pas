program faulty;
var count: integer; ready: boolean;
begin
  count := ready
end.
