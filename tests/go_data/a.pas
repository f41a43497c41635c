var a, b: array[1..40000] of Byte;
begin
  a[1] := 1;
  b[1] := 2;
  Write(a[1] + b[1])
end.
