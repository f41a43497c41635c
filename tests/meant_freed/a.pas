{$M 16384,0,64}
type R = record a, b, c: Integer end; Q = array[1..8] of Integer;
var p: array[1..9] of ^R; z: ^Q; k: Integer;
begin
  for k := 1 to 8 do New(p[k]);
  Write('8');
  for k := 1 to 8 do Dispose(p[k]);
  Write('d');
  New(z)
end.
