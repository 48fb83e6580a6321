$c 0 term $.

tze $a term 1 $.
