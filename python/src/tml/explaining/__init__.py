"""What a fault is about, and its cure, in words."""
