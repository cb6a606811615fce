"""`serve`: a server of the Language Server Protocol."""
