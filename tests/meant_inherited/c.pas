unit c;
interface

type
  TShape = object
    Width: Integer;
    Name: string[10];
    constructor Init(w: Integer);
    destructor Done; virtual;
    procedure Hello;
    procedure Rename(s: string);
    procedure Show; virtual;
  end;

implementation

constructor TShape.Init(w: Integer);
begin
  Width := w;
  Name := 'shape'
end;

destructor TShape.Done;
begin
  WriteLn('gone: ', Name)
end;

procedure TShape.Hello;
begin
  Write(Name, ': ')
end;

procedure TShape.Rename(s: string);
begin
  Name := s
end;

procedure TShape.Show;
begin
  Write('nothing')
end;

end.
