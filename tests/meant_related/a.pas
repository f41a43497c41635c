const
  N = 5;
  B = (N > 2) and Odd(N);
  S = [1, 3..N];
  T = (4 in S) and not (S <= [1, 3]);
  U = ('ab' + 'c' >= 'abc');
  Flags: array[Boolean] of Boolean = (not (N <> 6), not (N = 6));
begin
  WriteLn(B, T, U, Flags[False], Flags[True])
end.
