procedure Write(s: string); begin end;
begin ; Write('a') end.