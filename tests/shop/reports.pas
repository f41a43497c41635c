{$F+,O+}
unit Reports;

interface

{ Writes a line for each item of the list, and what they cost in all. }
procedure Report;

implementation

uses ShopType, MoneyOut, Rules, Items, Lists;

procedure Report;
var
  p: PItem;
  sum: Money;
begin
  sum := 0;
  p := first;
  while p <> nil do
  begin
    Write(p^.name:8, p^.count:4);
    Put(p^.Total, 6);
    WriteLn;
    sum := sum + p^.Total;
    p := p^.next
  end;
  Rule(21);
  Write('SUM':12);
  Put(sum, 6);
  WriteLn
end;

end.
