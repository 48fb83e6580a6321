$[ top.mm $]
$[ symbols.mm $]
tt $f term t $.
tze $a term 0 $.
