{$F+,O+}
unit Oa;
interface
type
  T = object
    constructor Init;
    procedure Go;
    procedure Show; virtual;
  end;
implementation
constructor T.Init;
begin
end;
procedure T.Go;
begin
  Show
end;
procedure T.Show;
begin
  Write('A')
end;
end.
