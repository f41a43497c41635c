{$F+}
program R8;
uses Overlay, Oa, Ob;
{$O Oa}
{$O Ob}
var x: U;
begin
  OvrInit('R8.OVR');
  x.Init;
  x.Go;
  WriteLn
end.
