{$F+}
unit Rules;

interface

{ Writes a line of n dashes. }
procedure Rule(n: Integer);

implementation

procedure Rule(n: Integer);
var
  k: Integer;
begin
  for k := 1 to n do Write('-');
  WriteLn
end;

end.
