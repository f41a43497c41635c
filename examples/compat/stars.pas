program Stars;
{ A night sky of coloured stars on a text screen. }
uses Crt, Rand;
var
  n, x, y: Integer;
begin
  ClrScr;
  for n := 1 to 60 do
  begin
    x := 1 + Random(78);
    y := 1 + Random(22);
    GotoXY(x, y);
    TextColor(1 + Random(15));
    Write('*')
  end;
  NormVideo;
  GotoXY(1, 24)
end.
