{$F+}
unit Rand;
{ Random numbers. They repeat from run to run unless RandSeed is set, and are not those of Turbo Pascal. }

interface

var
  RandSeed: LongInt;

{ A number from 0 to n - 1; 0 where n is 0. }
function Random(n: Word): Word;
{ There is no clock: the seed is the same in each run. }
procedure Randomize;

implementation

function Random(n: Word): Word;
begin
  RandSeed := RandSeed * 134775813 + 1;
  if n = 0 then Random := 0 else Random := RandSeed shr 16 mod n
end;

procedure Randomize;
begin
  RandSeed := 55
end;

begin
  RandSeed := 0
end.
