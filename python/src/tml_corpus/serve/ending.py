"""How a server ends though `tml` does not: what runs then is ended too, when the client says that it goes."""

from __future__ import annotations

import time
from threading import Event, Thread

from tml.running import end_all

AGAIN = 0.1
"""After so many seconds it is looked again whether something runs."""


class Ending:
    """Whether the client said that it goes, and whether that was long enough ago for all questions to be given up."""

    def __init__(self) -> None:
        self.said, self.late = Event(), Event()

    def begin(self, seconds: float) -> None:
        """Notes that the client goes: after so many seconds what runs is ended."""
        if not self.said.is_set():
            self.said.set()
            Thread(target=self.end, args=(seconds,), daemon=True).start()

    def end(self, seconds: float) -> None:
        """Waits, and ends what runs; this goes on until the process ends, since a question may just have been begun."""
        time.sleep(seconds)
        self.late.set()
        while True:
            end_all()
            time.sleep(AGAIN)
