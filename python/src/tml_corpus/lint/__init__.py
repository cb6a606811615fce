"""`check --lint`: what `tml` accepts and an annotator probably did not mean."""
