unit A;
interface
type
  Thing = record
    N: Integer
  end;
var
  First: Box;
implementation
uses B;
end.
