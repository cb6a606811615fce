"""`seconds`: placings of a document in whole seconds."""
