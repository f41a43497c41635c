{$F+,O+}
unit Ua;
interface
procedure A1(n: Integer);
procedure A2;
implementation
uses Ub;
procedure A1(n: Integer);
begin
  if n > 0 then A1(n - 1) else B1;
  Write('a', n)
end;
procedure A2;
begin
  Write('c')
end;
end.
