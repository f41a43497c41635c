{$F+,O+}
unit Uc;
interface
procedure P;
implementation
uses Overlay;
procedure P;
begin
  Write('1');
  OvrClearBuf;
  Write('2')
end;
end.
