$c a $. one $a a $.
u1 $p a $= ? $.
u2 $p a $= ( one ) A? $.
th $p a $= u1 $.
