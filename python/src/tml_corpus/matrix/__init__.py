"""`matrix` and `open`: what the intervals of a document can be to each other."""
