"""What a faulty document was before one keystroke went wrong: every keystroke undone, and what is left if only one meaning is."""
