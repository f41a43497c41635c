{$F+}
unit ShopType;

interface

type
  Money = LongInt;        { in cents }
  Code = string[8];

implementation

end.
