program Hello;
begin
  WriteLn('Hello from the 8086!');
end.
