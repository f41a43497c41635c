unit C;
interface
uses B;
var
  Store: Box;
procedure Bump;
implementation
procedure Bump;
begin
  Store.Count := Store.Count + 1;
  Store.Inner.N := Store.Inner.N + Store.Count
end;
begin
  Store.Count := 0
end.
