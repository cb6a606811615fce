"""Names that are nearly the same, for `did you mean`."""

from __future__ import annotations

from collections.abc import Iterable
from functools import lru_cache
from itertools import islice

from .invisible import without_invisible

MOST_CHOICES = 512
"""How many names are compared letter by letter at most; in all of them the same name in other letters is looked for."""

MOST_REMEMBERED = 256
LONGEST = 64
SHORT, LONG = 4, 8
"""A name of fewer letters than the first number is near none, and one of as many as the second may have two slips."""

LOOKALIKES = str.maketrans("lIoO", "1100")
"""Letters that look like digits."""


def plain(name: str) -> str:
    """A name without its case and without what nobody sees, and with one sign for what separates words."""
    return without_invisible(name).strip().replace("-", "_").replace(" ", "_").casefold()


def same_but_for_case(name: str, choices: Iterable[str]) -> str | None:
    """The choice that differs in upper and lower case, in what nobody sees or in what separates its words; None where two do."""
    wanted = plain(name)
    found = [choice for choice in choices if plain(choice) == wanted]
    return found[0] if len(found) == 1 else None


def nearest(name: str, choices: Iterable[str]) -> str | None:
    """The choice that was probably meant; None where none is near, or several are as near as each other."""
    found = near(name, choices)
    return found[0] if len(found) == 1 else None


def near(name: str, choices: Iterable[str]) -> list[str]:
    """The choices that may have been meant: the same but for case or for letters that look alike, or else those with the fewest slips."""
    return list(near_of(name, tuple(choices))) if len(name) <= LONGEST else []


@lru_cache(MOST_REMEMBERED)
def plain_names(choices: tuple[str, ...]) -> list[str]:
    """Some names as they are compared."""
    return list(map(plain, choices))


@lru_cache(MOST_REMEMBERED)
def near_of(name: str, choices: tuple[str, ...]) -> list[str]:
    """The same, which is remembered: a document may have the same slip very often."""
    wanted, names = plain(name), plain_names(choices)
    same = [choice for choice, other in zip(choices, names, strict=True) if other == wanted]
    if len(same) == 1:
        return same
    looking = name.translate(LOOKALIKES)
    looks = [choice for choice in choices if choice.translate(LOOKALIKES) == looking]
    if len(looks) == 1:
        return looks
    most = 0 if len(wanted) < SHORT else 1 if len(wanted) < LONG else 2
    found: dict[int, list[str]] = {}
    for choice, other in islice(zip(choices, names, strict=True), MOST_CHOICES):
        count = slips(wanted, other, most)
        if count <= most:
            found.setdefault(count, []).append(choice)
    return found[min(found)] if found else []


def slips(one: str, other: str, most: int) -> int:
    """How many letters are another one, too many, missing, or exchanged with the next one; a greater number than `most` where more are."""
    # Each letter that only one of them has is a slip.
    if abs(len(one) - len(other)) > most or len({*one}.difference(other)) > most or len({*other}.difference(one)) > most:
        return most + 1
    before, row = list[int](), list(range(len(other) + 1))
    for place, letter in enumerate(one, 1):
        earlier, before, row = before, row, [place]
        for at, wanted in enumerate(other, 1):
            count = min(before[at] + 1, row[at - 1] + 1, before[at - 1] + (letter != wanted))
            if place > 1 and at > 1 and letter == other[at - 2] and one[place - 2] == wanted:
                count = min(count, earlier[at - 2] + 1)
            row.append(count)
    return row[-1]


def one_letter_apart(one: str, other: str) -> bool:
    """Whether two names differ by one letter: another one, one more, one less, or two that changed places; or only by case."""
    one, other = one.casefold(), other.casefold()
    if abs(len(one) - len(other)) > 1:
        return False
    same = next(
        (place for place, (letter, meant) in enumerate(zip(one, other, strict=False)) if letter != meant), min(len(one), len(other))
    )
    one, other = one[same:], other[same:]
    return other[1:] in (one, one[1:]) or one[1:] == other or one == other[1::-1] + other[2:]
