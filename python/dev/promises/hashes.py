"""Hashes of what things mean: definitions are known by what they mean, and not by their names or places."""

from __future__ import annotations

import hashlib
from collections.abc import Callable, Iterable, Iterator, Sequence

from promises.terms import Piece, Reference

LENGTH = 10
"""How many hexadecimal digits a hash in the list has."""


def digest(parts: Iterable[str]) -> str:
    """A hash of some texts in order."""
    return hashlib.sha256("\0".join(parts).encode()).hexdigest()


class Hashes:
    """The hashes of definitions, each made once."""

    def __init__(self, meaning: Callable[[Reference], Sequence[Piece]], place: Callable[[Reference], tuple[str, str, int, str]]) -> None:
        self.meaning, self.place = meaning, place
        self.meanings: dict[Reference, Sequence[Piece]] = {}
        self.known: dict[Reference, str] = {}
        self.numbers: dict[Reference, int] = {}
        self.lowest: dict[Reference, int] = {}
        self.waiting: list[Reference] = []

    def of(self, pieces: Iterable[Piece]) -> str:
        """The hash of what something means, and of all definitions that it reaches."""
        return digest(self.known_of(piece) if isinstance(piece, Reference) else piece for piece in pieces)[:LENGTH]

    def known_of(self, reference: Reference) -> str:
        """The hash of a definition, and of all that it reaches."""
        if reference not in self.known:
            for one in self.visited(reference):
                self.end(one)
        return self.known[reference]

    def named(self, reference: Reference) -> Iterator[Reference]:
        """The definitions that a definition speaks of."""
        if reference not in self.meanings:
            self.meanings[reference] = self.meaning(reference)
        return (piece for piece in self.meanings[reference] if isinstance(piece, Reference))

    def visited(self, start: Reference) -> Iterator[Reference]:
        """The definitions from which a whole cycle is known, by Tarjan's search, without recursion."""
        path = [(start, self.begin(start))]
        while path:
            one, rest = path[-1]
            for other in rest:
                if other in self.known:
                    continue
                if other in self.numbers:
                    self.lowest[one] = min(self.lowest[one], self.numbers[other])
                    continue
                path.append((other, self.begin(other)))
                break
            else:
                path.pop()
                if path:
                    self.lowest[path[-1][0]] = min(self.lowest[path[-1][0]], self.lowest[one])
                if self.lowest[one] == self.numbers[one]:
                    yield one

    def begin(self, reference: Reference) -> Iterator[Reference]:
        """Numbers a definition, and answers those that it speaks of."""
        self.numbers[reference] = self.lowest[reference] = len(self.numbers)
        self.waiting.append(reference)
        return self.named(reference)

    def end(self, first: Reference) -> None:
        """Makes the hashes of a cycle of definitions, from the one that the search visited first."""
        at = self.waiting.index(first)
        cycle, self.waiting = sorted(self.waiting[at:], key=self.place), self.waiting[:at]
        places = {one: f"@{place}" for place, one in enumerate(cycle)}
        texts = [digest(self.piece(piece, places) for piece in self.meanings[one]) for one in cycle]
        for one in cycle:
            self.known[one] = texts[0] if len(cycle) == 1 else digest([places[one], *texts])

    def piece(self, piece: Piece, places: dict[Reference, str]) -> str:
        """The text or the hash of a part of a definition; of one in the same cycle its place there."""
        if not isinstance(piece, Reference):
            return piece
        return places[piece] if piece in places else self.known[piece]
