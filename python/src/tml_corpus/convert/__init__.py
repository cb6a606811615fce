"""Programs that turn documents of other corpora into what `tml` reads, and take links out."""
