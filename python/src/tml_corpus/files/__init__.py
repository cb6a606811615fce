"""Files on the disk: finding them, reading them, and writing others in their place."""
