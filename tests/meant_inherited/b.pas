unit b;
interface
uses c;

type
  TCircle = object(TShape)
    procedure Show; virtual;
  end;

implementation

procedure TCircle.Show;
begin
  Write('circle of ', Width)
end;

end.
