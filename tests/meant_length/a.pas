var s: string[5]; i: Integer;
begin
  s[0] := #3;
  for i := 1 to Length(s) do s[i] := 'x';
  Write(s, Length(s), Length('ab' + s));
  s[0] := #6;
  Write(Length(s))
end.
