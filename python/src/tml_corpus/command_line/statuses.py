"""The statuses of the companions of `tml`, and what they say where `tml` gives no judgement."""

from __future__ import annotations

from enum import IntEnum

from tml.statuses import DOCUMENT_LIMIT, TmlStatus


class Status(IntEnum):
    """With what the companions of `tml` end."""

    SUCCESS = 0
    FINDING = 1
    TROUBLE = 2
    INTERRUPTED = 130


MEANINGS = {
    TmlStatus.READ_FAULT: "tml cannot read the file",
    TmlStatus.NO_MEMORY: "tml ran out of memory",
    TmlStatus.TOO_LONG: f"the file has more than {DOCUMENT_LIMIT:,} bytes",
}
"""Why there is no judgement, where `tml` itself says so."""

ENDED = "the process that examined it was ended from outside, or ran out of memory"
"""What is said of a file with which a worker ended."""
