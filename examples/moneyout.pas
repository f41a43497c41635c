{$F+}
unit MoneyOut;

interface

uses ShopType;

{ Writes an amount, its whole part at least w wide. }
procedure Put(m: Money; w: Integer);

implementation

procedure Put(m: Money; w: Integer);
begin
  Write(m div 100:w, '.', m mod 100 div 10, m mod 10)
end;

end.
