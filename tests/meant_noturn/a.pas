var i: Integer; c: Char;
begin
  i := 7;
  for i := 5 to 3 do Write('x');
  Write(i);
  for i := 1 downto 2 do Write('y');
  c := 'c';
  for c := 'b' to 'a' do Write('z');
  WriteLn(i, c)
end.
