unit A;
interface
type
  Color = (Red, Green, Blue);
  Colors = set of Color;
  Digit = 1..9;
  Link = ^Node;
  Node = object
    Next: Link;
    Weight: Digit;
    constructor Init(W: Digit);
    procedure Show; virtual;
  end;
  Pair = record
    L, R: Digit
  end;
var
  Head: Link;
procedure Add(W: Digit);
procedure Run;
implementation
uses B;
type
  Both = record
    P: Pair;
    C: Color
  end;
constructor Node.Init(W: Digit);
begin
  Weight := W;
  Next := Head
end;
procedure Node.Show;
begin
  Write('n', Weight)
end;
procedure Add(W: Digit);
begin
  Head := Made(W)
end;
procedure Run;
var
  X: Both;
  C: Color;
begin
  Add(3);
  Add(5);
  Walk(Head);
  X.P.L := 1;
  X.P.R := 9;
  Exchange(X.P);
  Write(X.P.L, X.P.R);
  Paint(Blue);
  for C := Red to Blue do
  begin
    X.C := C;
    if X.C in Seen then Write(Ord(X.C))
  end;
  WriteLn
end;
begin
  Head := nil
end.
