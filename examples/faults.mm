$c a b $.
one $a a $.
p $p b $= one $.
q $p b $= p $.
r $p a $= nope $.
