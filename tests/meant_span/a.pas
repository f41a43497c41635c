var a, b: Integer; s: set of Byte;
begin
  a := 300;
  b := 256;
  s := [1, a..b, 2];
  Write(1 in s, 2 in s, 3 in s);
  s := [b..a]
end.
