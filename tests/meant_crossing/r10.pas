{$F+}
program R10;
uses Overlay, Ua, Ub;
{$O Ua}
{$O Ub}
begin
  OvrInit('R10.OVR');
  A1(2)
end.
