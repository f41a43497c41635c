{$F+}
unit Lists;

interface

uses Items;

var
  first, last: PItem;

procedure Add(p: PItem);

implementation

procedure Add(p: PItem);
begin
  if first = nil then first := p else last^.next := p;
  last := p
end;

begin
  first := nil;
  last := nil
end.
