var i: Integer;
begin
  Write('a');
  i := 0;
  while i < 3 do begin Write('b'); i := i + 1 end
end.
