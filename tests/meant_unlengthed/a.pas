var s: string; begin Write('q'); Write(Length(s)) end.
