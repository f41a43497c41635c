{$F+}
program A;
uses Overlay, U;
{$O U}
begin
  OvrInit('A.OVR');
  P
end.
