$c ( or ) wff |- a $.
$v P Q $.
wp $f wff P $.
wq $f wff Q $.
wa $a wff a $.
wor $a wff ( P or Q ) $.
given $a |- a $.
${
  weaker.1 $e |- P $.
  disjunction-is-weaker $a |- ( P or Q ) $.
$}
${
  commutes.1 $e |- ( P or Q ) $.
  disjunction-is-commutative $a |- ( Q or P ) $.
$}
one $p |- ( a or a ) $=
  ( wa given disjunction-is-weaker disjunction-is-commutative ) AAAABCD $.
two $p |- ( ( a or a ) or a ) $=
  ( wa wor given disjunction-is-weaker disjunction-is-commutative )
  AAABZAFCDE $.
three $p |- ( ( ( a or a ) or a ) or a ) $=
  ( wa wor given disjunction-is-weaker disjunction-is-commutative )
  AAABABZAFCDE $.
four $p |- ( ( ( ( a or a ) or a ) or a ) or a ) $=
  ( wa wor given disjunction-is-weaker disjunction-is-commutative )
  AAABABABZAFCDE $.
five $p |- ( ( ( ( ( a or a ) or a ) or a ) or a ) or a ) $=
  ( wa wor given disjunction-is-weaker disjunction-is-commutative )
  AAABABABABZAFCDE $.
