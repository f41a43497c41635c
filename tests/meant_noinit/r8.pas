{$F+}
program R8;
uses Overlay, Oa, Ob;
{$O Oa}
{$O Ob}
var x: U;
begin
  x.Init;
  x.Go;
  WriteLn
end.
