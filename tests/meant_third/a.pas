unit A;
interface
type
  Thing = record
    N: Integer
  end;
procedure Run;
implementation
uses C;
procedure Run;
var
  T: Thing;
begin
  T.N := 7;
  Store.Inner := T;
  Bump;
  T := Store.Inner;
  WriteLn(T.N)
end;
end.
