"""`check`, `fix` and `tags`: the faults of documents in words, with their cures, and the forms of a report."""
