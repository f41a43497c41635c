var c: Char; n: Integer;
begin
  Write(Eof);
  Read(c);
  Write(Ord(c));
  Read(n);
  Write(n)
end.
