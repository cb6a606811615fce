"""`report`: a folder of pages about a corpus."""
