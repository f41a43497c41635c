{$M 1024,0,0}
procedure P(n: Integer);
begin
  if n > 0 then P(n - 1)
end;
begin
  P(49)
end.
