program endless;
{ A run ends at the latest when as many actions as allowed have been done. }
begin
  repeat null forever
end.
