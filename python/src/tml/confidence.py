"""Relations that were predicted with a confidence each: those that are kept where the least confident one of each clash is dropped."""

from __future__ import annotations

import io
from collections.abc import Collection, Iterable, Sequence
from dataclasses import dataclass
from decimal import Decimal
from functools import cached_property
from numbers import Real

from .asking import Answer, Answerer, File, answer_to, content
from .documents import Document
from .helping import complete
from .matrices import Matrix, read_matrix
from .questions import check, dates
from .reading import cited, times_of
from .results import Consistent, Fault, Relation, TooLong
from .skeletons import Skeleton
from .statuses import BESIDE_BASE, DOCUMENT_LIMIT, LINK_LIMIT, TmlStatus
from .walks import fitting
from .writing import Ends, Linkables, links_in, with_tags

__all__ = ["consistent"]


def consistent(document: File, links: Linkables, weights: Iterable[float], by: Answerer | None = None) -> Consistent | Fault | TooLong:
    """The relations that are kept where the least confident one of each clash is dropped, until nothing clashes.

    The document gives the intervals and dates, and its own links do not count. A weight says how confident a relation is; of two with the
    same weight the one that was given later goes first. So a relation is dropped where it clashes with more confident ones that are kept.
    Relations are those of `with_links`. They and the weights are read once, in order: a column of a frame by its places, not by its labels.

    Which ones are to be dropped is counted here; that those which are kept fit, and none of the others next to them, is what `tml` says.
    """
    wanted, confidences, given = links_in(links), list(weights), content(document, DOCUMENT_LIMIT)
    relations = [one.says() for one in wanted]
    expect_weights(relations, confidences)
    accepted = document.counted() if isinstance(document, Document) else check(given, by)
    if isinstance(accepted, (Fault, TooLong)):
        return accepted
    ends = Ends(accepted.intervals, times_of(given), given)
    tags = [ends.tag(one) for one in wanted]
    ordered = sorted(range(len(relations)), key=confidences.__getitem__, reverse=True)
    kept = Filter(given, accepted.intervals, relations, [tag.encode() for tag in tags], ordered, by).kept()
    made = with_tags(given, [tags[number] for number in sorted(kept)])
    dropped = [number for number in ordered if number not in kept]
    return Consistent(tuple(relations[number] for number in sorted(kept)), tuple(relations[number] for number in dropped), made)


@dataclass(frozen=True)
class Filter:
    """Relations with their tags, and their numbers from the most confident one on."""

    document: bytes
    intervals: Sequence[str]
    relations: Sequence[Relation]
    tags: Sequence[bytes]
    ordered: Sequence[int]
    by: Answerer | None

    @cached_property
    def skeleton(self) -> Skeleton:
        """What the relations are put into."""
        return Skeleton(self.document)

    def asked(self, command: str, numbers: Iterable[int]) -> Answer:
        """What `tml` answers about some relations."""
        return answer_to(self.by, command, self.skeleton.with_links(self.tags[number] for number in numbers))

    def kept(self) -> set[int]:
        """The relations that are kept: all where a timeline fits them, and else those that fit, as far as `tml` says so too."""
        if self.asked("solve", range(len(self.relations))).status != TmlStatus.CLASH:
            return set(self.ordered)
        said = dates(self.document, self.by)
        assert isinstance(said, dict)
        kept = fitting(self.intervals, said, ((number, self.relations[number]) for number in self.ordered))
        while (answer := self.asked("matrix", kept)).status == TmlStatus.CLASH:
            kept.remove(max((kept[number] for number in cited(answer.text)), key=self.ordered.index))
        while (left := self.left_out(kept, answer)) is not None:
            kept.append(left)
            answer = self.asked("matrix", kept)
        return set(kept)

    def left_out(self, kept: Collection[int], answer: Answer) -> int | None:
        """The most confident relation that is not kept and may hold beside those that are, of which a matrix was asked."""
        matrix, chosen = read_matrix(io.BytesIO(answer.text), self.intervals), set(kept)
        return next((number for number in self.ordered if number not in chosen and is_possible(matrix, self.relations[number])), None)


def is_possible(matrix: Matrix, relation: Relation) -> bool:
    """Whether a relation may hold beside the links of a matrix."""
    base = matrix.possible(relation.first, relation.second)
    return relation.relation in base or not BESIDE_BASE.get(relation.relation, frozenset()).isdisjoint(base)


def is_number(weight: object) -> bool:
    """Whether a weight is a number."""
    return not weight.is_nan() if isinstance(weight, Decimal) else isinstance(weight, Real) and weight == weight


def expect_weights(relations: Sequence[Relation], weights: Sequence[float]) -> None:
    """Raises a `ValueError` where the weights are not those of the relations."""
    if len(relations) != len(weights):
        raise ValueError(f"there are {len(relations)} relations and {len(weights)} weights: each relation has one")
    wrong = next((number for number, weight in enumerate(weights) if not is_number(weight)), None)
    if wrong is not None:
        raise ValueError(f"the weight of {relations[wrong]} is not a number: {weights[wrong]!r}")
    if len(relations) > LINK_LIMIT:
        raise ValueError(f"there are {len(relations):,} relations, and a document may have {LINK_LIMIT:,} links")


complete(globals())
