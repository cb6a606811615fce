"""One document: its tags and texts with their places, its words, and changed copies of it."""
