{$F+,O+}
unit Pb;
interface
function FB(n: Integer): Integer;
implementation
uses Pa;
function FB(n: Integer): Integer;
begin
  if n = 0 then FB := 0 else FB := FA(n - 1) + 1
end;
end.
