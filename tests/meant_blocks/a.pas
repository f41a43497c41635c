program Blocks;
{ what a name means: blocks, parts, directives as names, predeclared names, what a routine keeps and shares }
const
  x = 1;
type
  T = Integer;
  Order = (first, second, third);
var
  forward, external, absolute, interrupt, near, name: Integer;

procedure Constants;
const
  y = x;
  x = 2;
begin
  WriteLn(y, x)
end;

procedure Hides(first: Integer);
type
  Other = (third, fourth);
begin
  WriteLn(first, Ord(second), Ord(third), Ord(fourth))
end;

procedure Pointers;
type
  P = ^T;
  T = record
    c: Char
  end;
var
  v: P;
begin
  New(v);
  v^.c := 'c';
  WriteLn(v^.c);
  Dispose(v)
end;

procedure OtherPointers;
type
  P = ^T;
var
  v: P;
begin
  New(v);
  v^ := 5;
  WriteLn(v^);
  Dispose(v)
end;

procedure Which;
begin
  Write('outer ')
end;

procedure Inner;

  procedure Which;
  begin
    Write('inner ')
  end;

begin
  Which
end;

procedure Predeclared(Abs: Integer);
type
  Integer = LongInt;
  Char = Byte;
const
  True = False;
var
  Length: Integer;
  c: Char;
begin
  Length := 100000;
  c := 65;
  WriteLn(Abs, ' ', Length, ' ', c, ' ', True, ' ', 1 = 1)
end;

procedure Keeps(k: Integer);
const
  n: Integer = 10;
  s: string[4] = 'a';
begin
  n := n + k;
  s := s + 'b';
  if k > 0 then
    Keeps(k - 1);
  Write(n, s, ' ')
end;

function Twice(n: Integer): Integer;
var
  k: Integer;

  function G(n: Integer): Integer;
  begin
    G := n + k;
    k := k + 1;
    Twice := k
  end;

begin
  k := 10;
  if G(n) + G(1) * 100 <> 1215 then
    Twice := 0
end;

function Again: Integer;
const
  n: Integer = 0;
begin
  n := n + 1;
  if n > 3 then
    Again := n
  else
    Again := Again + 1
end;

procedure Deep(depth: Integer);
var
  here: Integer;

  procedure Down;

    procedure Deeper;
    begin
      here := here + depth;
      if depth > 0 then
        Deep(depth - 1)
    end;

  begin
    here := 100;
    Deeper;
    Write(here, ' ')
  end;

begin
  Down
end;

begin
  forward := 1;
  external := 2;
  absolute := 3;
  interrupt := 4;
  near := 5;
  name := 6;
  WriteLn(forward + external + absolute + interrupt + near + name);
  Constants;
  Hides(9);
  Pointers;
  OtherPointers;
  Which;
  Inner;
  Which;
  WriteLn;
  Predeclared(-7);
  Keeps(3);
  Keeps(0);
  WriteLn;
  WriteLn(Twice(5), ' ', Again);
  Deep(3);
  WriteLn(x, Ord(third))
end.
