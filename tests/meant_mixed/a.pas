program Mixed;
{ operands of several types: the type in which they meet, and what wraps there }
const
  Thousand = 1000;
var
  b: Byte;
  h: ShortInt;
  i: Integer;
  w: Word;
  l: LongInt;
  small: 1..100;
begin
  b := 200;
  h := -100;
  i := -1;
  w := 65535;
  l := 65536;
  small := 100;
  WriteLn(b + b, ' ', b * b, ' ', b - 201, ' ', b + h, ' ', h * h * h, ' ', not b, ' ', -b);
  WriteLn(w + 1, ' ', w * w, ' ', 5 - w, ' ', -w, ' ', not w, ' ', w + i, ' ', w * i, ' ', w - b);
  WriteLn(i * l, ' ', l * l, ' ', l * 32767 + l, ' ', w + l, ' ', small * small * 10, ' ', small * 1000);
  WriteLn(i = w, ' ', i < w, ' ', i < b, ' ', Word(i) = w, ' ', Integer(w) = i, ' ', w < l, ' ', h < b, ' ', w > -1);
  WriteLn(i and w, ' ', i or b, ' ', i xor w, ' ', w and $FF00, ' ', b xor h, ' ', l or i);
  WriteLn(i shr 1, ' ', i shr 15, ' ', i shl 15, ' ', i shl 16, ' ', w shr 8, ' ', b shl 8, ' ', h shr 4, ' ', l shl 15, ' ', 1 shl 17);
  b := 3;
  WriteLn(w shl b, ' ', i shr (b + 256), ' ', l shr b, ' ', l shr 32);
  i := -32768;
  WriteLn(i - 1, ' ', -i, ' ', Abs(i), ' ', i div -1, ' ', i mod -1, ' ', i * i, ' ', Sqr(i + 1), ' ', Pred(i));
  WriteLn(-7 div 2, ' ', -7 mod 2, ' ', 7 div -2, ' ', 7 mod -2, ' ', w div -2, ' ', w mod -10, ' ', l div w, ' ', b div h);
  i := Thousand;
  l := i * 100;
  Write(l, ' ');
  l := LongInt(i) * 100;
  Write(l, ' ');
  l := i * 100000;
  WriteLn(l);
  l := 74565;
  i := l;
  w := l;
  b := l;
  h := l + 100;
  WriteLn(i, ' ', w, ' ', b, ' ', h, ' ', Byte(l + 200), ' ', ShortInt(l + 200), ' ', Word(-l), ' ', Hi(w), ' ', Lo(w), ' ', Swap(w));
  i := -200;
  b := i;
  h := i;
  w := i;
  l := i;
  WriteLn(b, ' ', h, ' ', w, ' ', l);
  Inc(b, 300);
  Dec(h, 300);
  Inc(w, 300);
  Dec(i, 32700);
  WriteLn(b, ' ', h, ' ', w, ' ', i, ' ', Succ(w), ' ', Ord(Odd(w)), ' ', Ord(Chr(321)), ' ', Ord('A') * 1000)
end.
