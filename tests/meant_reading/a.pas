program Reading;
{ lines end with 13 10, 13 or 10; numbers pass over them; byte 26 is the end }
var
  c: Char;
  b: Byte;
  i, j: Integer;
  l: LongInt;
  s: string;
  t: string[3];

procedure Told;
begin
  WriteLn(Eof, ' ', Eoln)
end;

begin
  Read(i, j);
  ReadLn(l);
  WriteLn(i, ' ', j, ' ', l);
  ReadLn(s);
  WriteLn('[', s, ']');
  Read(t);
  Write('[', t, ']');
  Read(c);
  WriteLn(Ord(c));
  ReadLn(t);
  WriteLn('[', t, ']');
  { the line feed behind a carriage return that was read as a character ends a line of its own }
  Read(c, c);
  Write(Ord(c), ' ');
  Told;
  ReadLn;
  ReadLn(c, i, s);
  WriteLn(c, i, '[', s, ']');
  Read(b);
  ReadLn(s);
  WriteLn(b, '[', s, ']');
  ReadLn(s);
  Write('[', s, ']');
  ReadLn(s);
  WriteLn('[', s, ']');
  Told;
  Read(s, i, c);
  WriteLn('[', s, ']', i, ' ', Ord(c));
  ReadLn;
  Told
end.
