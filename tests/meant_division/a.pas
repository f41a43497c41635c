var i: Integer;
begin
  i := -7;
  Write(i div 2, ' ', i mod 2);
  i := -32768;
  Write(' ', i div -1)
end.
