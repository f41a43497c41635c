program Lines;
{ which method is called: by the variable's type, by the class, by name, inside constructors, nested routines, arrays and records }
type
  PA = ^TA;
  TA = object
    n: Integer;
    constructor Init(k: Integer);
    destructor Done; virtual;
    procedure P; virtual;
    procedure Q; virtual;
    procedure S;
    procedure Nested(k: Integer);
  end;
  PB = ^TB;
  TB = object(TA)
    m: Integer;
    constructor Init(k: Integer);
    procedure Q; virtual;
    procedure R; virtual;
    procedure S;
  end;
  PC = ^TC;
  TC = object(TB)
    destructor Done; virtual;
    procedure P; virtual;
    procedure R; virtual;
  end;
  Pair = record
    a: TA;
    c: TC;
    p: PA
  end;
var
  x: PA;
  y: PB;
  one, two: array[1..2] of TB;
  r: Pair;
  i: Integer;

constructor TA.Init(k: Integer);
begin
  n := k;
  Q
end;

destructor TA.Done;
begin
  Write('dA', n, ' ')
end;

procedure TA.P;
begin
  Write('pA ');
  Q
end;

procedure TA.Q;
begin
  Write('qA', n, ' ')
end;

procedure TA.S;
begin
  Write('sA ')
end;

procedure TA.Nested(k: Integer);

  procedure Down(j: Integer);

    procedure Deeper;
    begin
      n := n + j;
      Q;
      Self.S
    end;

  begin
    Deeper;
    if j > 1 then
      Down(j - 1)
  end;

begin
  Down(k)
end;

constructor TB.Init(k: Integer);
begin
  m := k * 10;
  TA.Init(k + 1);
  Q
end;

procedure TB.Q;
begin
  Write('qB', m, ' ');
  TA.Q
end;

procedure TB.R;
begin
  Write('rB ');
  P
end;

procedure TB.S;
begin
  Write('sB ');
  TA.S
end;

destructor TC.Done;
begin
  Write('dC ');
  TA.Done
end;

procedure TC.P;
begin
  Write('pC ');
  TB.P
end;

procedure TC.R;
begin
  Write('rC ');
  TB.R
end;

procedure By(var a: TA);
begin
  a.S;
  a.P
end;

begin
  x := New(PC, Init(1));
  x^.P;
  x^.S;
  Dispose(x, Done);
  WriteLn;
  { a constructor gives the class of the pointer's type, not of what it pointed to }
  New(y, Init(2));
  y^.R;
  y^.S;
  Dispose(y, Done);
  WriteLn;
  y := New(PC, Init(3));
  y^.R;
  y^.Nested(2);
  Dispose(y, Done);
  WriteLn;
  for i := 1 to 2 do
    one[i].Init(i + 3);
  two := one;
  two[2].m := 7;
  WriteLn;
  for i := 1 to 2 do
    two[i].R;
  By(one[1]);
  WriteLn;
  r.a.Init(6);
  r.c.Init(7);
  r.p := New(PB, Init(8));
  { the target keeps its class }
  r.a := r.c;
  WriteLn;
  r.a.P;
  By(r.c);
  with r, p^ do
  begin
    S;
    n := 9;
    c.R;
    P
  end;
  Dispose(r.p, Done);
  WriteLn
end.
