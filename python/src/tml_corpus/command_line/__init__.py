"""The command line of `tml-corpus`: its words, what a run is, and how it ends."""
