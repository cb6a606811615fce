"""The commands of `tml-corpus`: a module for each, with its options, and what it prints of the values that other packages give."""
