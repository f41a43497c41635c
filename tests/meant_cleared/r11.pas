{$F+}
program R11;
uses Overlay, Uc;
{$O Uc}
begin
  OvrInit('R11.OVR');
  P
end.
