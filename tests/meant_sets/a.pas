type L = set of 0..255; S = set of 7..8;
var v: L;
begin
  v := [0, 255];
  Write(0 in v, 255 in v, 1 in v, ' ', SizeOf(L), ' ', SizeOf(S))
end.
