program Constants;
uses Overlay;
const
  Hello = 'Hello';
  Bang = '!';
  Code = 258;
type
  TName = string[9];
var
  name: TName;

procedure Never;
begin
  Write(name)
end;

begin
  begin
    WriteLn(Hello, ', ', 'world', Bang);
  end;;
  Halt(Code);
  Write(Hello)
end.
