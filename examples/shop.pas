{$F+}
program Shop;

uses Overlay, ShopType, Items, Lists, Reports;

{$O Items}
{$O Reports}

var
  a: PItem;
  b: PCut;
begin
  OvrInit('SHOP.OVR');
  if OvrResult <> ovrOk then Halt(1);
  New(a, Init('PEN', 120, 3));
  Add(a);
  New(b, Init('BOOK', 1000, 2));
  Add(b);
  New(a, Init('CUP', 250, 1));
  Add(a);
  Report;
  while first <> nil do
  begin
    a := first;
    first := a^.next;
    Dispose(a, Done)
  end
end.
