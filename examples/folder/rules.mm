$[ terms.mm $]
refl $a |- t = t $.
