{$M 1024,0,0}
begin Write('x') end.