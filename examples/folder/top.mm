$[ terms.mm $]
$[ rules.mm $]
th $p |- 0 = 0 $= tze refl $.
