{ The file is there, but not under a name of the folder. }
{$I inner.inc}
{$I ./inner.inc}
begin Write(One) end.
