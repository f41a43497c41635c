{$R+}
var i: 1..5;
begin
  i := 5;
  i := i + 1
end.
