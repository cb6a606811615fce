"""Clean documents of more kinds than `ordinary` has: what slips are made in, so that it is known what each cure should come to.

A story has a prolog or none, wrappers, a creation time, days, months and durations, signals, events, of some of them two
instances, and links of all three kinds. Each is made from a `Random` alone. `tml-corpus check --lint` has nothing to say of it.
"""

from __future__ import annotations

import re
from datetime import date, timedelta
from random import Random

VERBS = ("fell", "rose", "closed", "opened", "met", "voted", "signed", "left", "struck", "paid", "sold", "ruled", "came back", "said")
PEOPLE = (
    "the bank", "the port", "the union", "Ms. Brontë", "the court", "AT&amp;T", "the café", "S&amp;P", "the board", "an owner",
    "a stake of &lt; 5%",
)  # fmt: skip
CLASSES = ("OCCURRENCE", "REPORTING", "STATE", "I_ACTION", "PERCEPTION")
TENSES = ("PAST", "PRESENT", "PASTPART", "NONE")
RELATIONS = ("BEFORE", "AFTER", "IBEFORE", "IAFTER", "SIMULTANEOUS", "INCLUDES", "IS_INCLUDED", "BEGINS", "ENDED_BY", "OVERLAPS", "DURING")
LONGEST_STEP = 3


class Story:
    """One story as it is made: its lines of text, and the tags that stand after them."""

    def __init__(self, random: Random) -> None:
        self.random = random
        self.created = date(1998, 1, 8) + timedelta(days=random.randrange(340))
        self.text: list[str] = []
        self.instances: list[str] = []
        self.links: list[str] = []
        self.times, self.events, self.signals = 1, 0, 0
        self.instance_names: list[str] = []
        self.time_names = ["t0"]
        self.gap = random.choice((1, 1, LONGEST_STEP))
        """How far apart the numbers of events are."""

    def chance(self, one_of: int) -> bool:
        """One case of so many."""
        return self.random.randrange(one_of) == 0

    def event(self) -> str:
        """The next event; its instance, and perhaps a second one of another tense, are noted."""
        self.events += self.random.randint(1, self.gap)
        number = self.events
        words = self.random.choice(VERBS)
        self.instance(f"ei{number}", number, "POS")
        if self.chance(9):
            self.instance(f"ei{number}b", number, "NEG")
        return f'<EVENT eid="e{number}" class="{self.random.choice(CLASSES)}">{words}</EVENT>'

    def instance(self, name: str, number: int, polarity: str) -> None:
        """An instance of an event."""
        self.instance_names.append(name)
        tense = self.random.choice(TENSES)
        self.instances.append(
            f'<MAKEINSTANCE eiid="{name}" eventID="e{number}" tense="{tense}" aspect="NONE" pos="VERB" polarity="{polarity}"/>'
        )

    def time(self) -> str:
        """The next time: a month, a duration, a time of a day, a quarter, or a day."""
        name = f"t{self.times}"
        self.times += 1
        self.time_names.append(name)
        day = self.created - timedelta(days=self.random.randint(1, 6))
        kind = self.random.randrange(6)
        if kind == 0:
            return f'<TIMEX3 tid="{name}" type="DATE" value="{day:%Y-%m}">{day:%B}</TIMEX3>'
        if kind == 1:
            days = self.random.randint(2, 9)
            return f'<TIMEX3 tid="{name}" type="DURATION" value="P{days}D" beginPoint="t0">{days} days</TIMEX3>'
        if kind == 2:
            hour = self.random.randint(8, 12)
            return f'<TIMEX3 tid="{name}" type="TIME" value="{day}T{hour:02}:30">{hour}:30 on {day:%A}</TIMEX3>'
        if kind == 3:
            return f'<TIMEX3 tid="{name}" type="DATE" value="{day:%Y}-Q{(day.month + 2) // 3}">this quarter</TIMEX3>'
        anchor = ' temporalFunction="true" anchorTimeID="t0"' if self.chance(2) else ""
        return f'<TIMEX3 tid="{name}" type="DATE" value="{day}"{anchor}>{day:%A}</TIMEX3>'

    def sentence(self) -> str:
        """A sentence of one or two events, with a time or without."""
        words = f"{self.random.choice(PEOPLE)} {self.event()}"
        if self.chance(2):
            self.signals += 1
            words += f' <SIGNAL sid="s{self.signals}">before</SIGNAL> {self.random.choice(PEOPLE)} {self.event()}'
            first, second = self.instance_names[-2:]
            self.link(first, second, "BEFORE", f' signalID="s{self.signals}"')
        if self.chance(2):
            words += f" on {self.time()}"
            self.link(self.instance_names[-1], self.time_names[-1], "IS_INCLUDED")
        return words[0].upper() + words[1:] + "."

    def link(self, left: str, right: str, relation: str, more: str = "") -> None:
        """A TLINK between two intervals; names of times begin with `t`."""
        first = "timeID" if left.startswith("t") else "eventInstanceID"
        second = "relatedToTime" if right.startswith("t") else "relatedToEventInstance"
        self.links.append(f'<TLINK lid="l{len(self.links) + 1}" {first}="{left}" {second}="{right}"{more} relType="{relation}"/>')

    def other_links(self) -> None:
        """Links of the other kinds, and of each interval that has none yet."""
        first, *others = self.instance_names
        if others and self.chance(2):
            kind, relation, name = self.random.choice(
                (("SLINK", "MODAL", "subordinatedEventInstance"), ("ALINK", "INITIATES", "relatedToEventInstance"))
            )
            self.links.append(
                f'<{kind} lid="l{len(self.links) + 1}" eventInstanceID="{first}" {name}="{others[-1]}" relType="{relation}"/>'
            )
        for name in self.instance_names:
            if not any(f'"{name}"' in link for link in self.links):
                self.link(name, "t0", self.random.choice(RELATIONS))

    def document(self) -> str:
        """The whole document."""
        paragraphs = [" ".join(self.sentence() for _ in range(self.random.randint(1, 3))) for _ in range(self.random.randint(2, 4))]
        self.other_links()
        prolog = ['<?xml version="1.0" encoding="UTF-8"?>'] if self.chance(2) else []
        created = f'<TIMEX3 tid="t0" type="DATE" value="{self.created}" functionInDocument="CREATION_TIME">{self.created:%d/%m/%Y}</TIMEX3>'
        text = [f"<P>{one}</P>" for one in paragraphs] if self.chance(2) else paragraphs
        lines = [*prolog, "<TimeML>", f"<DCT>{created}</DCT>", "<TEXT>", *text, "</TEXT>", *self.instances, *self.links, "</TimeML>"]
        whole = "\n".join(lines) + "\n"
        return self.renumbered(whole) if self.chance(3) else whole

    def renumbered(self, whole: str) -> str:
        """The document with the numbers of its events in no order."""
        numbers = list(range(1, self.events + 1))
        others = self.random.sample(numbers, len(numbers))
        return re.sub(r'"(ei?)(\d+)(b?)"', lambda found: f'"{found[1]}{others[int(found[2]) - 1]}{found[3]}"', whole)
