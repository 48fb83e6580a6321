$c 0 = term |- $.
$v t $.
