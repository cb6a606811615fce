"""`timeline`: the timeline of a document as a picture."""
