program A;
type
  R = record x: Integer; y: array[1..4] of LongInt; s: string[9] end;
  P = ^R;
  O = object n: LongInt; procedure Show; end;
  C = object m: Integer; constructor Init; end;
var
  v: R; q: P; w: array[0..2] of R; ob: O; cl: C; i: Integer;
const
  A1 = SizeOf(v.y[2]);
  A2 = SizeOf(q^.s);
  A3 = SizeOf(w[1].y) + SizeOf(R);
  A4 = SizeOf(v.s[1]);
  A5 = SizeOf(cl.m) - 5;
type
  T = array[1..SizeOf(v.y)] of Byte;
procedure O.Show;
const N = SizeOf(n);
begin
  Write(N, ' ')
end;
constructor C.Init;
begin
end;
begin
  ob.Show;
  WriteLn(A1, ' ', A2, ' ', A3, ' ', A4, ' ', A5, ' ', SizeOf(T), ' ', SizeOf(Byte) - 10, ' ', -SizeOf(Byte), ' ', SizeOf(q^) - 100);
  i := SizeOf(v);
  cl.Init;
  WriteLn(i, ' ', SizeOf(cl) - 5, ' ', SizeOf(v.s));
  with v do
    for i := 1 to SizeOf(y) div SizeOf(y[1]) do Write(i);
  WriteLn
end.
