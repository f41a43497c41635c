var t: string[3]; s: string; k: Integer;
begin
  t := 'abcd';
  Write(t);
  s := '';
  for k := 1 to 200 do s := s + 'a';
  s := s + Copy(s, 1, 100);
  Write(' ', Length(s))
end.
