{$F+,O+}
unit Ob;
interface
uses Oa;
type
  U = object(T)
    procedure Show; virtual;
  end;
implementation
procedure U.Show;
begin
  Write('B')
end;
end.
