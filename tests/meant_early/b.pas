unit B;
interface
uses A;
type
  Box = record
    Inner: Thing;
    Count: Integer
  end;
implementation
end.
