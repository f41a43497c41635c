program P;
uses A, B;
begin
  Run;
  Paint(Green);
  Head^.Show;
  if Green in Seen then WriteLn(Head^.Weight)
end.
