{$F+}
unit Params;
{ For programs that ask for their parameters: there are none. }

interface

function ParamCount: Word;
function ParamStr(n: Word): string;

implementation

function ParamCount: Word;
begin
  ParamCount := 0
end;

function ParamStr(n: Word): string;
begin
  ParamStr := ''
end;

end.
