{$F+}
program A;
uses Overlay, Oa;
{$O Oa}
begin
  OvrInit('NO.OVR');
  Write(OvrResult)
end.
