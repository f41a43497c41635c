unit B;
interface
uses A;
type
  MarkedLink = ^Marked;
  Marked = object(Node)
    Mark: Color;
    constructor Init(W: Digit; C: Color);
    procedure Show; virtual;
  end;
var
  Seen: Colors;
function Made(W: Digit): Link;
procedure Walk(From: Link);
procedure Exchange(var P: Pair);
procedure Paint(C: Color);
implementation
constructor Marked.Init(W: Digit; C: Color);
begin
  Node.Init(W);
  Mark := C
end;
procedure Marked.Show;
begin
  Write('m', Ord(Mark));
  Node.Show
end;
function Made(W: Digit): Link;
var
  M: MarkedLink;
  N: Link;
begin
  if W < 5 then
  begin
    New(M, Init(W, Green));
    Made := M
  end
  else
  begin
    New(N, Init(W));
    Made := N
  end
end;
procedure Walk(From: Link);
begin
  while From <> nil do
  begin
    From^.Show;
    From := From^.Next
  end
end;
procedure Exchange(var P: Pair);
var
  D: Digit;
begin
  D := P.L;
  P.L := P.R;
  P.R := D
end;
procedure Paint(C: Color);
begin
  Seen := Seen + [C]
end;
begin
  Seen := [Red]
end.
