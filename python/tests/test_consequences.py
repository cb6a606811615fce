"""Looking on after a fault: what is said further is wrong with the document itself, and does not come of what was left out for it."""

from __future__ import annotations

import unittest

from corpus import CorpusTest

EVENT = '<EVENT eid="e1" {}>fell</EVENT>\n'
REST = (
    '<EVENT eid="e2" class="STATE">rose</EVENT>\n<MAKEINSTANCE eiid="ei1" eventID="e1"/>\n<MAKEINSTANCE eiid="ei2" eventID="e2"/>\n'
    '<TLINK lid="l1" eventInstanceID="ei1" relatedToEventInstance="ei2" relType="{}"/>\n</TimeML>\n'
)


class Consequences(CorpusTest):
    def faults(self, content: str) -> list[str]:
        """The places, numbers and whole lines of the faults of a document, as `check --more` says them."""
        self.write("d.xml", content)
        _, lines, _ = self.run_it("check", "--more", "9", "d.xml")
        return [line.removeprefix("d.xml:") for line in lines if ": error: " in line]

    def test_one_slip_of_an_event_is_one_fault(self) -> None:
        values = ("OCCURENCE", "OCCURRENCES", "Occurrence", "STATES", "X", "")
        for slip in (*(f'class="{value}"' for value in values), 'clas="STATE"', ""):
            with self.subTest(slip):
                self.assertEqual(len(self.faults("<TimeML>\n" + EVENT.format(slip) + REST.format("BEFORE"))), 1)

    def test_a_slip_of_a_reference_or_of_an_identifier_is_one_fault(self) -> None:
        right = "<TimeML>\n" + EVENT.format('class="STATE"') + REST.format("BEFORE")
        event = 'eventID="e1"'
        slips = ((event, 'eventID="#e1"'), (event, 'eventID="e:1"'), ("ei1", "ei 1"), ('eiid="ei1"', 'eiid=""'), ("e1", "é1"))
        for meant, slip in slips:
            with self.subTest(slip):
                said = self.faults(right.replace(meant, slip))
                self.assertEqual({line.split("error: ")[1].split(" ")[0] for line in said} - {"11", "10"}, set())

    def test_what_is_wrong_besides_is_said(self) -> None:
        said = self.faults("<TimeML>\n" + EVENT.format('class="OCCURENCE"') + REST.format("before").replace('"ei2" rel', '"ei9" rel'))
        heads = [line.split(" ")[0] + line.split("error:")[1].split(":")[0] for line in said]
        self.assertEqual(heads, ["2:17: 11 BadValue", "6:68: 11 BadValue", "6:39: 15 UnknownReference"])
        self.assertIn('no MAKEINSTANCE has eiid="ei9"', said[2])
        self.assertNotIn("consequence", "".join(said))

    def test_a_made_up_identifier_is_in_no_message(self) -> None:
        said = self.faults("<TimeML>\n" + EVENT.format('class="STATE"') + REST.format("BEFORE").replace('eventID="e1"', 'eventID="e:7"'))
        self.assertEqual(len(said), 1)
        self.assertNotIn("e_7", "".join(said))


if __name__ == "__main__":
    unittest.main()
