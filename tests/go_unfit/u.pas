{$F+}
unit U;
interface
procedure P;
implementation
procedure P;
begin
  Write('u')
end;
end.
