program P;
uses A;
begin
end.
