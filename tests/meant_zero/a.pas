var i: Integer;
begin
  i := 0;
  Write(1 div i)
end.
