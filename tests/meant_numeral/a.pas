var a, b: Integer;
begin
  Read(a, b)
end.
