{$F+,O+}
unit Ub;
interface
procedure B1;
implementation
uses Ua;
procedure B1;
begin
  A2;
  Write('b')
end;
end.
