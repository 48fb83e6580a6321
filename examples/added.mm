$c wff |- ( -> ) $.
$v P Q R $.
wp $f wff P $. wq $f wff Q $. wr $f wff R $.
wim $a wff ( P -> Q ) $.
${ min $e |- P $. maj $e |- ( P -> Q ) $. mp $a |- Q $. $}
k $a |- ( P -> ( Q -> P ) ) $.
${ add.1 $e |- P $. add $p |- ( Q -> P ) $= ( wim k mp ) ABADCABEF $. $}
kk $p |- ( R -> ( P -> ( Q -> P ) ) ) $= ( wim k mp ) ABADDZCGDABEGCEF $.
${ th.1 $e |- P $. th $p |- ( Q -> P ) $= ( wim k mp ) ABADCABEF $. $}
