{$F+}
unit Crt;
{ The screen of Turbo Pascal's unit Crt, by the codes of ANSI terminals. Keys come from the input. }

interface

const
  Black = 0;
  Blue = 1;
  Green = 2;
  Cyan = 3;
  Red = 4;
  Magenta = 5;
  Brown = 6;
  LightGray = 7;
  DarkGray = 8;
  LightBlue = 9;
  LightGreen = 10;
  LightCyan = 11;
  LightRed = 12;
  LightMagenta = 13;
  Yellow = 14;
  White = 15;
  Blink = 128;
  BW40 = 0;
  CO40 = 1;
  BW80 = 2;
  CO80 = 3;
  Mono = 7;

var
  { These change nothing. }
  CheckBreak, CheckEOF, CheckSnow, DirectVideo: Boolean;

procedure ClrScr;
procedure ClrEol;
procedure InsLine;
procedure DelLine;
procedure GotoXY(x, y: Byte);
procedure TextColor(color: Byte);
procedure TextBackground(color: Byte);
procedure NormVideo;
procedure HighVideo;
procedure LowVideo;
{ Clears the screen, which has one mode only. }
procedure TextMode(mode: Word);

{ The next character of the input: byte 13 at the end of a line, byte 26 at the end of the input. }
function ReadKey: Char;
{ Whether the input goes on. }
function KeyPressed: Boolean;

{ Nobody waits and nothing sounds. }
procedure Delay(ms: Word);
procedure Sound(hertz: Word);
procedure NoSound;

implementation

const
  { The number of a colour in ANSI codes. }
  Ansi: array[0..7] of Byte = (0, 4, 2, 6, 1, 5, 3, 7);

procedure ClrScr;
begin
  Write(#27'[2J', #27'[H')
end;

procedure ClrEol;
begin
  Write(#27'[K')
end;

procedure InsLine;
begin
  Write(#27'[L')
end;

procedure DelLine;
begin
  Write(#27'[M')
end;

procedure GotoXY(x, y: Byte);
begin
  Write(#27'[', y, ';', x, 'H')
end;

procedure TextColor(color: Byte);
begin
  if color and 8 <> 0 then Write(#27'[1;') else Write(#27'[22;');
  if color and Blink <> 0 then Write('5;3') else Write('25;3');
  Write(Ansi[color and 7], 'm')
end;

procedure TextBackground(color: Byte);
begin
  Write(#27'[4', Ansi[color and 7], 'm')
end;

procedure NormVideo;
begin
  Write(#27'[0m')
end;

procedure HighVideo;
begin
  Write(#27'[1m')
end;

procedure LowVideo;
begin
  Write(#27'[22m')
end;

procedure TextMode(mode: Word);
begin
  ClrScr
end;

function ReadKey: Char;
var
  key: Char;
begin
  if Eof then
    key := #26
  else if Eoln then
  begin
    ReadLn;
    key := #13
  end
  else
    Read(key);
  ReadKey := key
end;

function KeyPressed: Boolean;
begin
  KeyPressed := not Eof
end;

procedure Delay(ms: Word);
begin
end;

procedure Sound(hertz: Word);
begin
end;

procedure NoSound;
begin
end;

begin
  CheckBreak := True;
  CheckEOF := False;
  CheckSnow := True;
  DirectVideo := True
end.
