begin Write('x
