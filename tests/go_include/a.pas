{$M 2048,0,0}
begin {$I words.inc} end.