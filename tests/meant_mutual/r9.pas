{$F+}
program R9;
uses Overlay, Pa, Pb;
{$O Pa}
{$O Pb}
begin
  OvrInit('R9.OVR');
  Write(FA(50))
end.
