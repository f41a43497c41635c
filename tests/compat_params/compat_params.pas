program CompatParams;
{ no parameters; random numbers repeat from the same seed, and stay below n }
uses Params, Rand;
var
  i, j: Integer;
  first: array[1..10] of Word;
  same, below: Boolean;
begin
  WriteLn(ParamCount, '[', ParamStr(0), ParamStr(1), ']', RandSeed);
  Randomize;
  WriteLn(Random(1), Random(0), ' ', RandSeed);
  RandSeed := 2026;
  for i := 1 to 10 do
  begin
    first[i] := Random(1000);
    Write(first[i], ' ')
  end;
  WriteLn;
  RandSeed := 2026;
  same := True;
  for i := 1 to 10 do
    if Random(1000) <> first[i] then same := False;
  below := True;
  for i := 1 to 10 do
    for j := 1 to 100 do
      if Random(i) >= i then below := False;
  WriteLn(same, ' ', below, ' ', RandSeed, ' ', Random(65535))
end.
