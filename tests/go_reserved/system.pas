{$M 16384,0,0}
 program Fine; begin writeln(1) end.