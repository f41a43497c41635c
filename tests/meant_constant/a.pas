const k: Integer = 5;
var i, c: Integer;
begin
  k := k + 1;
  Val('12x', i, c);
  Write(k, ' ', c, ' ', 'ab':4, '|', 'abc':2)
end.
