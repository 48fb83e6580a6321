$c a b $. one $a a $.
${ h $e a $. step $a b $. $}
open $p a $= ? $.
half $p b $= open step $.
full $p b $= one step $.
