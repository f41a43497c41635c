program CompatCrt;
{ each routine of the unit Crt, and keys with lines that end by 10, by 13 10 and by 13 }
uses Crt;
var
  key: Char;
begin
  ClrScr;
  TextMode(CO80);
  GotoXY(80, 25);
  ClrEol;
  InsLine;
  DelLine;
  TextColor(Black);
  TextColor(Brown);
  TextColor(White);
  TextColor(Cyan + Blink);
  TextBackground(Blue);
  HighVideo;
  LowVideo;
  NormVideo;
  Delay(60000);
  Sound(440);
  NoSound;
  WriteLn;
  WriteLn(CheckBreak, ' ', CheckEOF, ' ', CheckSnow, ' ', DirectVideo);
  while KeyPressed do
  begin
    key := ReadKey;
    Write(Ord(key), ' ')
  end;
  WriteLn(Ord(ReadKey), ' ', Ord(ReadKey))
end.
