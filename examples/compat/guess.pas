program Guess;
{ Guess a letter, with a key for each guess; any other key ends the game. }
uses Crt, Rand, Params;

var
  secret, key: Char;
  tries: Integer;
  isOver: Boolean;

procedure Answer(text: string; color: Byte);
begin
  TextColor(color);
  WriteLn(key, ' ', text);
  NormVideo
end;

procedure Judge;
begin
  Inc(tries);
  if UpCase(key) < secret then
    Answer('is too low', LightBlue)
  else if UpCase(key) > secret then
    Answer('is too high', LightRed)
  else
  begin
    Answer('it is', LightGreen + Blink);
    isOver := True
  end
end;

begin
  if ParamCount > 0 then RandSeed := Length(ParamStr(1)) else Randomize;
  CheckBreak := False;
  TextMode(CO80);
  GotoXY(10, 2);
  ClrEol;
  WriteLn('A letter, please.');
  secret := Chr(Ord('A') + Random(26));
  tries := 0;
  isOver := False;
  while KeyPressed and not isOver do
  begin
    key := ReadKey;
    case key of
      'A'..'Z', 'a'..'z': Judge;
      #13: ;
    else
      isOver := True
    end;
    Delay(100)
  end;
  if isOver then WriteLn(tries, ' tries') else WriteLn('The letter was ', secret, '.')
end.
