const
  Hex: array[0..15] of Char = '0123456789ABCDEF';
  Ends: array[Boolean] of array[1..2] of Char = ('no', 'ja');
  One: array['a'..'a'] of Char = 'x';
var n: Byte;
begin
  for n := 8 to 11 do Write(Hex[n]);
  WriteLn(Ends[True][1], Ends[False][2], One['a'])
end.
