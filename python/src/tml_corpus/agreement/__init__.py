"""`agree`: how far two annotations of the same texts agree."""
