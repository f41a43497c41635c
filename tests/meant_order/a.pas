program Order;
{ what has effects is evaluated from the left to the right, a place before the value that goes there }
type
  R = record
    x: Integer
  end;
  Name = string[9];
  Digits = set of 0..9;
var
  n: Integer;
  a: array[1..9] of Integer;
  v: array[1..2] of R;
  one: R;
  s: Name;
  d: Digits;

function F(k: Integer): Integer;
begin
  Write('F', k, ' ');
  F := k
end;

function Next: Integer;
begin
  n := n + 1;
  Next := n
end;

function Odd1(k: Integer): Boolean;
begin
  Write(k);
  Odd1 := Odd(k)
end;

function More: Name;
begin
  s := s + '!';
  More := '?'
end;

function Change: Integer;
begin
  one.x := 9;
  s := 'new';
  d := [5];
  Change := 1
end;

procedure Three(a, b, c: Integer);
begin
  WriteLn(a, b, c)
end;

procedure Move1(var x: Integer; y: Integer; var z: Integer);
begin
  x := y;
  z := z + 100
end;

procedure Before(r1: R; s1: Name; d1: Digits; k: Integer);
begin
  Write(r1.x, ' ', s1, ' ', 5 in d1, ', ')
end;

procedure Behind(k: Integer; r1: R; s1: Name; d1: Digits);
begin
  WriteLn(r1.x, ' ', s1, ' ', 5 in d1)
end;

procedure Start;
begin
  one.x := 1;
  s := 'old';
  d := [1]
end;

begin
  Three(F(1), F(2), F(3));
  WriteLn(F(1) + F(2) * F(3), ' ', F(4) < F(5), ' ', F(6) in [F(7), F(5)..F(6)]);
  WriteLn(F(1): F(4), F(2), '.': F(3));
  for n := 1 to 9 do
    a[n] := 0;
  n := 0;
  a[Next] := Next;
  a[Next] := n;
  WriteLn(a[1], a[2], a[3], n);
  Move1(a[Next], Next, a[Next]);
  WriteLn(a[4], ' ', a[6]);
  n := 5;
  WriteLn(n + Next * n, ' ', Next - n);
  n := 2;
  for n := F(n) to F(n + 3) do
    Write(n, ' ');
  WriteLn;
  s := 'a';
  s := s + More;
  Write(s, ' ');
  s := More + s;
  Write(s, ' ');
  WriteLn(s = More + s, ' ', s);
  { a record is handed over as a place and copied as the call begins, a string and a set as they are evaluated }
  Start;
  Before(one, s, d, Change);
  Start;
  Behind(Change, one, s, d);
  v[1].x := 1;
  v[2].x := 2;
  n := 1;
  with v[n] do
  begin
    n := 2;
    x := 10
  end;
  WriteLn(v[1].x, ' ', v[2].x);
  if Odd1(2) and Odd1(1) then Write('?');
  if Odd1(1) or Odd1(3) then Write(' ');
  if Odd1(2) and Odd1(1) or Odd1(4) and Odd1(5) then Write('?');
  {$B+}
  if Odd1(2) and Odd1(1) then Write('?');
  if Odd1(1) or Odd1(3) then WriteLn
end.
