"""The language server: documents, what is told of them, and the messages of LSP 3.17."""
