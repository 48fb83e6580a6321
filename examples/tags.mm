$c + ( ) term $.
$v t r $.
tt $f term t $.
tr $f term r $.
plus $a term ( t + r ) $.
th $p term ( ( t + r ) + ( t + r ) ) $= ( plus ) ABCZDC $.
