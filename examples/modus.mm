$c ( ) -> wff |- $.
$v P Q $.
wp $f wff P $.
wq $f wff Q $.
wim $a wff ( P -> Q ) $.
id $a |- ( P -> P ) $.
${
  min $e |- P $.
  maj $e |- ( P -> Q ) $.
  mp $a |- Q $.
$}
${
  a1 $e |- ( ( P -> P ) -> Q ) $.
  th $p |- Q $= wp wp wim wq wp id a1 mp $.
$}
