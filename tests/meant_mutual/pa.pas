{$F+,O+}
unit Pa;
interface
function FA(n: Integer): Integer;
implementation
uses Pb;
function FA(n: Integer): Integer;
begin
  if n = 0 then FA := 0 else FA := FB(n - 1) + 1
end;
end.
