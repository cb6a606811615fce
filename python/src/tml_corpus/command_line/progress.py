"""A sign of progress on standard error, where that is a terminal: by tqdm, or as a plain count."""

from __future__ import annotations

import sys


class Progress:
    """How many of the items are done."""

    def __init__(self, total: int, unit: str) -> None:
        self.total, self.unit, self.done, self.bar = total, unit, 0, None
        self.seen = sys.stderr.isatty()
        if self.seen:
            try:
                from tqdm import tqdm

                self.bar = tqdm(total=total, unit=f" {unit}", leave=False, file=sys.stderr)
            except ImportError:
                pass

    def step(self) -> None:
        """One more is done."""
        self.done += 1
        if self.bar is not None:
            self.bar.update(1)
        elif self.seen and (self.done % 20 == 0 or self.done == self.total):
            print(f"\r{self.done} of {self.total} {self.unit}", end="", file=sys.stderr, flush=True)

    def clear(self) -> None:
        """Makes room for a line of the output."""
        if self.bar is not None:
            self.bar.clear()
        elif self.seen:
            print("\r\x1b[K", end="", file=sys.stderr, flush=True)

    def close(self) -> None:
        """Takes the sign of progress away."""
        self.clear()
        if self.bar is not None:
            self.bar.close()
