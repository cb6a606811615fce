"""Ordinary documents: short news items with what annotators write of their dates and events. They are made up, and no corpus.

`python3 python/tests/ordinary.py FOLDER N` writes N of them. Each is made from its number alone, and so is the same in
every run:

- a creation time, which is a day of 1998, and one to four further days of the week that ends with it, each linked to it in
  one case of four by BEFORE;
- four to nine events, each on one of these days: it IS_INCLUDED in its day, and BEFORE or AFTER the event before it in the
  text, as they happened;
- each day but the first BEFORE or AFTER the day that the text names before it, in one case of four;
- in one document of four a month or a quarter, which IS_INCLUDED in its year;
- in one document of fifty a slip: one of the links between events has the opposite relation.

Links are drawn without a look at whether days are neighbours, as an annotator who reads BEFORE as *earlier* writes them.
"""

from __future__ import annotations

import os
import sys
from datetime import date, timedelta
from random import Random

VERBS = ("fell", "rose", "closed", "opened", "met", "voted", "signed", "left", "struck", "paid", "sold", "ruled")
NOUNS = ("bank", "port", "union", "minister", "court", "council", "company", "board", "owner", "agency")
OPPOSITE = {"BEFORE": "AFTER", "AFTER": "BEFORE"}


class Item:
    """One news item as it is made: the sentences, and the tags that stand after them."""

    def __init__(self, number: int) -> None:
        self.random = Random(number)
        self.created = date(1998, 1, 8) + timedelta(days=self.random.randrange(340))
        self.days = [
            self.created - timedelta(days=back) for back in sorted(self.random.sample(range(1, 7), self.random.randint(1, 4)), reverse=True)
        ]
        self.random.shuffle(self.days)
        self.text: list[str] = []
        self.instances: list[str] = []
        self.links: list[str] = []

    def link(self, left: str, right: str, relation: str) -> None:
        """Adds a link; names of events begin with `ei`."""
        first = "eventInstanceID" if left.startswith("ei") else "timeID"
        second = "relatedToEventInstance" if right.startswith("ei") else "relatedToTime"
        self.links.append(f'<TLINK lid="l{len(self.links)}" {first}="{left}" {second}="{right}" relType="{relation}"/>')

    def chance(self, one_of: int) -> bool:
        """One case of so many."""
        return self.random.randrange(one_of) == 0

    def name_days(self) -> None:
        """Names the days, and links them."""
        for number, day in enumerate(self.days, 1):
            self.text.append(f'On <TIMEX3 tid="t{number}" type="DATE" value="{day}">{day:%A}</TIMEX3>')
            if self.chance(4):
                self.link(f"t{number}", "t0", "BEFORE")
            if number > 1 and self.chance(4):
                self.link(f"t{number - 1}", f"t{number}", "BEFORE" if self.days[number - 2] < day else "AFTER")

    def tell_events(self) -> None:
        """Puts the events after the days, and links them as they happened."""
        happened = sorted((self.random.randrange(len(self.days)) for _ in range(self.random.randint(4, 9))), key=lambda day: self.days[day])
        order = list(range(len(happened)))
        self.random.shuffle(order)
        slip = self.random.randrange(1, len(order)) if self.chance(50) else 0
        for place, event in enumerate(order):
            noun, verb = self.random.choice(NOUNS), self.random.choice(VERBS)
            self.text[happened[event]] += f' the {noun} <EVENT eid="e{place}" class="OCCURRENCE">{verb}</EVENT>,'
            self.instances.append(
                f'<MAKEINSTANCE eiid="ei{place}" eventID="e{place}" tense="PAST" aspect="NONE" pos="VERB" polarity="POS"/>'
            )
            self.link(f"ei{place}", f"t{happened[event] + 1}", "IS_INCLUDED")
            if place:
                relation = "BEFORE" if order[place - 1] < event else "AFTER"
                self.link(f"ei{place - 1}", f"ei{place}", OPPOSITE[relation] if place == slip else relation)

    def name_period(self) -> None:
        """Names a month or a quarter and its year, in one document of four."""
        if self.chance(4):
            number = self.random.randint(1, 12)
            value = f"1998-{number:02}" if self.chance(2) else f"1998-Q{(number + 2) // 3}"
            self.text.append(
                f'In <TIMEX3 tid="t8" type="DATE" value="{value}">that time</TIMEX3> of <TIMEX3 tid="t9" type="DATE" value="1998">the '
                "year</TIMEX3>"
            )
            self.link("t8", "t9", "IS_INCLUDED")

    def document(self) -> str:
        """The whole document."""
        self.name_days()
        self.tell_events()
        self.name_period()
        dct = f'<TIMEX3 tid="t0" type="DATE" value="{self.created}" functionInDocument="CREATION_TIME">{self.created}</TIMEX3>'
        sentences = [sentence.removesuffix(",") + "." for sentence in self.text]
        return "\n".join(['<?xml version="1.0"?>', "<TimeML>", dct, *sentences, *self.instances, *self.links, "</TimeML>"]) + "\n"


def write(folder: str, count: int) -> None:
    """Writes so many documents to a folder."""
    os.makedirs(folder, exist_ok=True)
    for number in range(count):
        with open(os.path.join(folder, f"{number:05}.xml"), "w", encoding="utf-8") as file:
            file.write(Item(number).document())


if __name__ == "__main__":
    write(sys.argv[1], int(sys.argv[2]))
