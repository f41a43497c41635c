{$F+,O+}
unit Items;

interface

uses ShopType;

type
  PItem = ^TItem;
  TItem = object
    next: PItem;
    name: Code;
    price: Money;
    count: Integer;
    constructor Init(n: Code; p: Money; c: Integer);
    destructor Done; virtual;
    function Total: Money; virtual;
  end;

  { An item that is sold for nine tenths of its price. }
  PCut = ^TCut;
  TCut = object(TItem)
    function Total: Money; virtual;
  end;

implementation

constructor TItem.Init(n: Code; p: Money; c: Integer);
begin
  next := nil;
  name := n;
  price := p;
  count := c
end;

destructor TItem.Done;
begin
end;

function TItem.Total: Money;
begin
  Total := price * count
end;

function TCut.Total: Money;
begin
  Total := TItem.Total * 9 div 10
end;

end.
