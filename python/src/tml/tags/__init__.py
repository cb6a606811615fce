"""A document in tags, as it is written: its units, its attributes and the profile of TimeML, for the words of messages."""
