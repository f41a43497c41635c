program Itself;

{ A unit may use itself behind its interface part: nothing new comes of it. }

uses Own;

var
  one: TCell;

begin
  one.Put(2);
  Say;
  writeln(Count, ' ', one.held)
end.
