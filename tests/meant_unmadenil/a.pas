type
  P = ^T;
  T = object
    constructor Init;
    destructor Done(N: Integer); virtual;
  end;
constructor T.Init; begin end;
destructor T.Done(N: Integer); begin Write('d', N) end;
function F: Integer; begin Write('f'); F := 1 end;
var a, b: P;
begin
  a := nil;
  Write('.');
  Dispose(a, Done(F))
end.
