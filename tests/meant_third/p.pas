program P;
uses A;
begin
  Run;
  Run
end.
