"""What became of one file that was asked about clashes: its fault, its clashes, its links between dates that touch, a repair."""

from __future__ import annotations

from typing import TYPE_CHECKING, NamedTuple

from ..check.formats import WarningCounts, not_looked_for
from ..check.judgement import Judgement
from ..check.placed import PlacedNote
from ..files.finding import counted
from ..lint.kinds import Lint

if TYPE_CHECKING:
    from tml.lines import Step
    from tml.places import Place

    from ..document.words import Link

TOUCHING = "dates that touch"
"""The verdict on a document whose only clashes these are."""


class Wanted(NamedTuple):
    """What is asked about a document beside its first fault or clash."""

    folder: str | None = None
    touching: bool = False
    more: int = 0
    repair: bool = False
    explained: bool = True
    lint: Lint | None = None
    every_clash: bool = True
    """Whether clashes are wanted that are not shown as such, since dates that touch are the only ones of their document."""


class PlacedLink(NamedTuple):
    """A link in words, and its line of the document with the relation marked."""

    link: Link
    text: str
    source: list[str]

    def place(self) -> Place:
        """Where its tag begins."""
        return self.link.place

    def named(self) -> str:
        """The link by its lid, or by its number where it has none, and the names of its intervals."""
        return f"{self.link.called()}: {self.link.left} {self.link.relation} {self.link.right}"


class PlacedClash(NamedTuple):
    """A minimal clash: its links, what the calendar says of it, its dates, relations that would not clash, its evidence, and its walk."""

    links: list[PlacedLink]
    calendar: list[PlacedNote]
    dates: list[PlacedNote]
    cures: list[PlacedNote]
    evidence: str | None
    walk: tuple[Step, ...] = ()


class PlacedChange(NamedTuple):
    """A link between dates that touch, the relation that holds, and why."""

    link: PlacedLink
    relation: str
    reason: str
    asks: str

    def cure(self) -> str:
        """What to write."""
        return f"{self.reason}, and {self.asks}: write {self.relation}"

    def reading(self) -> str:
        """How the link was read."""
        return f"read as {self.relation}: {self.reason}, and {self.asks}"


class PlacedRepair(NamedTuple):
    """Links without which a timeline fits: each with those that do in its place; and what is known of their number."""

    choices: list[list[PlacedLink]]
    smallest: bool
    all_choices: bool
    at_least: int
    changes: int
    """How many links between dates that touch are to be mended besides."""
    is_of_dates: bool = False
    """Whether the clash rests on dates, of which one may be wrong in the place of a link."""

    def text(self) -> str:
        """What is to be done, in one line."""
        links = "link" if self.changes == 1 else f"{self.changes} links"
        besides = [f"mend the {links} between dates that touch as said above"] if self.changes else []
        if not self.choices and self.at_least:
            return (
                f"no set of links without which a timeline fits was found within the limit of questions about one "
                f"document; {self.known()}"
            )
        if self.choices:
            or_a_date = ", or correct a date" if self.is_of_dates and len(self.choices) == 1 else ""
            besides.append(f"leave out or mend {self.which()}{or_a_date}")
        return f"{', '.join(besides)}, and a timeline fits" + (f"; {self.known()}" if len(self.choices) > 1 or not self.smallest else "")

    def which(self) -> str:
        """The links that are to be left out, in words."""
        if len(self.choices) > 1:
            return f"these {len(self.choices)} links"
        return "this link" if len(self.choices[0]) == 1 else f"any one of these {len(self.choices[0])} links"

    def known(self) -> str:
        """What is known of the number of links."""
        if self.smallest:
            return "fewer will not do"
        best = "this is the best set found within the limit of questions about one document, and " if self.choices else ""
        return f"{best}fewer than {self.at_least} will not do"


class ClashReport:
    """What became of one file: also whether links between dates that touch were read so, and whether a timeline fits with these read so."""

    def __init__(self, judgement: Judgement, read_touching: bool = False, fits_touching: bool = False) -> None:
        self.judgement, self.read_touching, self.fits_touching = judgement, read_touching, fits_touching
        self.clashes: list[PlacedClash] = []
        self.touching: list[PlacedChange] = []
        self.repair: PlacedRepair | None = None

    def is_plain(self) -> bool:
        """Whether some timeline fits and there is nothing to say of it."""
        return self.judgement.is_plain() and self.repair is None and not (self.clashes or self.touching or self.fits_touching)

    def verdict(self) -> str:
        """What became of it, in a word or two."""
        if self.judgement.problem is not None:
            return "not judged"
        if self.judgement.faults:
            return "fault"
        if self.fits_touching and not self.read_touching:
            return TOUCHING
        return "clash" if self.clashes else "fits"

    def shown_clashes(self) -> list[PlacedClash]:
        """The clashes to show; where dates that touch are the only ones, their links are shown each for itself."""
        return [] if self.verdict() == TOUCHING else self.clashes


class ClashSummary:
    """How many files there are, and what became of them; faults are asked about too where they are checked, as by `check --clashes`."""

    def __init__(self, files: int, checked: bool = False, read_touching: bool = False, lint: bool = False) -> None:
        self.files, self.checked, self.read_touching, self.lint = files, checked, read_touching, lint
        self.verdicts: dict[str, int] = {}
        self.first_faults: dict[tuple[int, str], int] = {}
        self.further_faults = self.further_clashes = self.changes = self.changed_files = 0
        self.warnings = WarningCounts()

    def add(self, report: ClashReport) -> None:
        """Counts one file: wholly, or not at all where something is raised, which comes first."""
        verdict, faults = report.verdict(), report.judgement.faults
        first = (faults[0].fault.number, faults[0].fault.title()) if faults else None
        self.warnings.add(report.judgement)
        self.verdicts[verdict] = self.verdicts.get(verdict, 0) + 1
        if first is not None:
            self.first_faults[first] = self.first_faults.get(first, 0) + 1
        self.further_faults += max(len(faults) - 1, 0)
        self.further_clashes += max(len(report.clashes) - 1, 0)
        self.changes += len(report.touching)
        self.changed_files += bool(report.touching)

    def add_plain(self) -> None:
        """Counts one file that a timeline fits and of which there is nothing to say."""
        self.verdicts["fits"] = self.verdicts.get("fits", 0) + 1

    def count(self, *verdicts: str) -> int:
        """How many files have one of some verdicts."""
        return sum(self.verdicts.get(verdict, 0) for verdict in verdicts)

    def status(self, strict: bool = False) -> int:
        """0 where a timeline fits each document, 2 where something could not be judged, else 1; a warning counts where this is strict."""
        if self.count("not judged"):
            return 2
        return 1 if self.count("fault", "clash", TOUCHING) or (strict and self.warnings.files) else 0

    def text(self, interrupted: bool) -> str:
        """The summary in lines."""
        parts = [f"{self.count('clash')} with a clash"]
        if self.count("dates that touch"):
            parts.append(f"{self.count(TOUCHING)} whose only clashes are dates that touch")
        if self.checked:
            parts.insert(0, f"{self.count('fits')} accepted")
        else:
            parts.append(f"{self.count('fits')} without")
        parts += [f"{self.count('fault')} with a fault", f"{self.count('not judged')} not judged"]
        lines = [f"{counted(self.files, 'file')}: {', '.join(parts)}"]
        lines += [f"{number:7}  {what}" for number, what in self.counts()]
        lines += self.warnings.lines()
        lines += not_looked_for(lint=self.lint, clashes=True) if self.checked else []
        looked_at = sum(self.verdicts.values())
        if interrupted:
            lines.append(f"interrupted: {looked_at} of {self.files} files were looked at")
        return "".join(line + "\n" for line in lines)

    def counts(self) -> list[tuple[int, str]]:
        """What is counted besides."""
        counts = [(count, title) for (_, title), count in sorted(self.first_faults.items())] if self.checked else []
        if self.further_faults:
            counts.append((self.further_faults, "further faults, perhaps only consequences of these"))
        if self.further_clashes:
            noun = "further clash," if self.further_clashes == 1 else "further clashes, each"
            counts.append((self.further_clashes, f"{noun} without the links of those before it"))
        if self.changes:
            files = counted(self.changed_files, "file")
            how = ", read so" if self.read_touching else ": --touching reads them so, tml-edit --touching-dates writes them so"
            noun = "link" if self.changes == 1 else "links"
            counts.append((self.changes, f"{noun} between dates that touch, in {files}{how}"))
        return counts
