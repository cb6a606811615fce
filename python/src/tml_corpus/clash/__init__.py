"""`clashes`: links that contradict each other, and what would settle it."""
