unit Own;

interface

const
  Most = 3;

type
  Few = 1..Most;
  TCell = object
    held: Few;
    procedure Put(it: Few);
  end;

var
  Count: Few;

procedure Say;

implementation

uses Own;

procedure TCell.Put(it: Few);
begin
  held := it
end;

procedure Say;
var
  at: Few;
  cell: TCell;
begin
  for at := 1 to Most do
  begin
    Count := at;
    cell.Put(at);
    writeln('own ', cell.held)
  end
end;

end.
