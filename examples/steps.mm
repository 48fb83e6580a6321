$c e $.
$v x y $.
fx $f e x $.
fy $f e y $.
nil $a e $.
cat $a e x y $.
th $p e $= ( nil cat ) AABZCB $.
