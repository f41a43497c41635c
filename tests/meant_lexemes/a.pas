{$A+,B-,D+} { a program without a heading } (*$R-*) {$DEFINE Here a word of it}
{$IFDEF Here} {$I part.INC } {$ELSE} what's this? { nor this } {$IFDEF Here} '{$ENDIF} {$ENDIF Here}
CONST
  bell=^g;N=3;
VAR
  a:ARRAY(.1..n.)OF Integer;i:INTEGER;C:char;p:^Integer;
BEGIN { (* } WriteLn('a');(* } *)WriteLn('{b}','(*c*)'){ ' };;
  BEGIN;END;
  wRITElN('it''s','''',''#39#$27'"',#72#105,Length(''),Length('a'#13#10'b'));
  WriteLn($ff,' ',$7FFFFFFF,' ',$FFFFFFFF,' ',-$8000,' ',007,' ',Ord(bell),' ',Ord(^Z),' ',Ord(^m));
  FOR i:=1TO 3DO a[i]:=i*i;a(.2.):=a[2]+1;
  IF a[3]=9THEN WriteLn('nine')ELSE;
  IF a[1]{ }IN[ 1..3 ]THEN;
  New(p);p^:=2;CASE p^OF 1..2:WriteLn(p^*2,p^-1)ELSE END;
  CASE a[1]OF 5:;1:IF n<3THEN WriteLn('x')ELSE WriteLn('y');END;
  c:=^C;IF c=^c THEN IF c<>^D THEN WriteLn('control')ELSE ELSE WriteLn('?');
  REPEAT Dec(p^)UNTIL p^<0;WriteLn(p^,+5,-p^,- 2*3,10- -4,7*-2,-7 MOD 3,NOT 5AND 3,2SHL 1+1);
  {$IFOPT R+}WriteLn('checked');{$ELSE}WriteLn('not checked');{$ENDIF}{$UNDEF HERE}
  {$IFNDEF here}WriteLn(kept,' ',_Long_1,' ',
    a234567890b234567890c234567890d234567890e234567890f234567890xyzHERE);{$ENDIF}
END.
' { not read