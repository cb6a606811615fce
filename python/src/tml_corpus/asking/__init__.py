"""Asking `tml` about files: by its program or its library, on all processors or on a cluster."""
