program HidSelf;

{ A variable Self of a routine inside a method hides the method's by its name alone: members stay known. }

type
  TBase = object
    n: Integer;
    procedure Add(by: Integer);
  end;

  TCount = object(TBase)
    procedure Add(by: Integer);
    procedure Run;
  end;

procedure TBase.Add(by: Integer);
begin
  n := n + by
end;

procedure TCount.Add(by: Integer);
begin
  n := n - by
end;

procedure TCount.Run;

  procedure Inner;
  var
    Self: Integer;
  begin
    Self := 7;
    TBase.Add(Self);
    WriteLn(n, ' ', Self);
    Add(2);
    Self := n
  end;

begin
  n := 35;
  Inner;
  WriteLn(Self.n)
end;

var
  count: TCount;

begin
  count.Run
end.
