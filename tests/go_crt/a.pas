program A;
uses
  Crt;
begin
end.
