$[ terms.mm $]
