program a;
uses b;

type
  TSquare = object(TCircle)
    constructor Init(w: Integer);
    procedure Show; virtual;
  end;
  PSquare = ^TSquare;

constructor TSquare.Init(w: Integer);
begin
  TCircle.Init(w);
  Rename('square')
end;

procedure TSquare.Show;
begin
  Write('[');
  TCircle.Show;
  Write(']')
end;

var
  x: TCircle;
  p: PSquare;
begin
  x.Init(3);
  x.Hello;
  x.Show;
  WriteLn;
  p := New(PSquare, Init(4));
  p^.Hello;
  p^.Show;
  WriteLn;
  Dispose(p, Done)
end.
