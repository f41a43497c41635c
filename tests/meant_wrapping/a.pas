var i: Integer; w: Word;
begin
  i := 32767;
  i := i + 1;
  Write(i);
  w := 65535;
  i := -1;
  Write(' ', w = i)
end.
