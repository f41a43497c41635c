var x: Integer;
begin
  x := 5;
  Write('a', x)
end.
