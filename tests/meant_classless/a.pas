{$R+}
type
  T = object
    constructor I;
    procedure S; virtual;
  end;
constructor T.I;
begin
end;
procedure T.S;
begin
end;
var x: T;
begin
  x.S
end.
