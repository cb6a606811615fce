"""Whether something happens, by a share of all cases."""

from __future__ import annotations

from random import Random


def chance(random: Random, share: float) -> bool:
    """Whether something happens that does in such a share of all cases."""
    return random.random() < share
