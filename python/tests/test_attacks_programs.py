"""Programs in the place of `tml`, none of which may look like a judgement.

Seven programs that are not `tml`, the first with each command, and one whose answer is as long as 71,500,000 bytes. Numbers of 5,000
digits in three replies of a program about one document of two.
"""

import os
import shutil
import signal
import unittest

from attacks import COMMANDS, AttackTest
from corpus import CLASH, TML, document
from processes import PATIENCE, interrupt, is_running, until
from tml.process import Process

PROGRAMS = (
    "exit 0",
    "exit 1",
    "yes",
    "cat",
    "echo accepted",
    "echo fault 10 MissingAttribute 99999; exit 1",
    "echo fault 10 BadValue 0; exit 1",
)
"""Programs that are not `tml`."""


class Programs(AttackTest):
    def test_what_is_not_tml_judges_nothing(self) -> None:
        for number, body in enumerate(PROGRAMS):
            fake = self.fake(body)
            # Every command meets the first program, and the others meet some of them.
            for command in COMMANDS[number % 4 if number else 0 :: 4 if number else 1]:
                with self.subTest(body=body, command=command):
                    ended = self.called(command, tml=fake)
                    self.assertEqual(ended.status, 2, ended)
                    self.assertNotIn("Traceback", ended.error)
                    self.assertRegex(
                        ended.out + ended.error,
                        r"tml (answered status \d+ to `(check|solve|spans|reduce|score|seconds)`|printed more than [\d,]+ bytes)",
                    )
                    self.assertLess(ended.mebibytes, 400)
        self.assertFalse(os.path.exists(self.path("good.svg")))

    def test_a_long_answer_that_the_library_would_give_is_believed(self) -> None:
        line, count = " ".join(("n" * 64, "SIMULTANEOUS", "m" * 64)), 500_000
        fake = self.fake(f"yes {line} | head -n {count}")
        self.assertEqual(len(Process(fake).answer("relations", [b""])[1]), count * (len(line) + 1))

    def test_replies_that_belong_to_another_question(self) -> None:
        rows = [
            ("reduce", "relations", "redundant-links --tml TML a.xml"),
            ("score", "reduce", "tml-corpus agree --tml TML a.xml a.xml"),
            ("check", "solve", "tml-corpus check --lint --tml TML a.xml"),
            ("dates", "check", "tml-corpus timeline --tml TML a.xml -o good.svg"),
        ]
        self.write(
            "a.xml",
            document('<TIMEX3 tid="a" type="SET"/><TIMEX3 tid="b" type="SET"/><TLINK timeID="a" relatedToTime="b" relType="AFTER"/>'),
        )
        for question, other, command in rows:
            with self.subTest(question):
                fake = self.fake(f'if [ $1 = {question} ]; then exec {TML} {other} -; fi\nexec {TML} "$@"')
                ended = self.called(command, tml=fake)
                self.assertEqual(ended.status, 2, ended)
                self.assertIn(f"tml answered status 0 to `{question}`, and a text that does not go with it", ended.out)

    def test_a_number_that_cannot_be_read_is_about_one_document_alone(self) -> None:
        self.write("liar.xml", document(CLASH.replace("BEFORE", "IDENTITY") + '<SIGNAL sid="liar"/>'))
        self.write("lying-clash.xml", document(CLASH + '<SIGNAL sid="liar"/>'))
        for question, word, command in (
            ("check", "timex ", "tml-corpus check --tml TML liar.xml good.xml"),
            ("solve", "cite ", "tml-corpus clashes --tml TML lying-clash.xml good.xml"),
            ("reduce", "of ", "redundant-links --tml TML liar.xml good.xml"),
        ):
            lie = f"s/{word}[0-9]*/{word}{'9' * 5000}/"
            fake = self.fake(
                f'cat > "$0.$$"; {TML} "$@" < "$0.$$" > "$0.$$.said"; status=$?\n'
                f'if [ $1 = {question} ] && grep -q liar "$0.$$"; then sed "{lie}" "$0.$$.said"; else cat "$0.$$.said"; fi; exit $status'
            )
            with self.subTest(question):
                ended = self.called(command, tml=fake)
                self.assertEqual((ended.status, ended.error), (2, ""))
                self.assertRegex(ended.out, r"(?m)^2 files(: 1 accepted|: 0 with a clash, 1 without|, 1 skipped)")
                self.assertIn("and a text that does not go with it", ended.out)

    def test_a_program_that_hangs_is_ended_with_the_second_interruption(self) -> None:
        # A folder is there at once with all of its name, as a file with its content is not.
        fake = self.fake(f'cat >/dev/null\nmkdir -p "{self.path("asked")}/$$"\nsleep 300')
        for command in (COMMANDS[0], COMMANDS[4], COMMANDS[7]):
            with self.subTest(command):
                shutil.rmtree(self.path("asked"), ignore_errors=True)
                child = self.begin(command, tml=fake)
                until(self.asked)
                interrupt(child)
                self.assertIsNone(child.poll())
                child.send_signal(signal.SIGINT)
                child.communicate(timeout=PATIENCE)
                self.assertEqual(child.returncode, -signal.SIGINT)
                until(lambda: not any(map(is_running, self.asked())))

    def test_a_program_with_nothing_to_report_ends_with_the_first_interruption(self) -> None:
        for command in (COMMANDS[6], COMMANDS[8]):
            with self.subTest(command):
                shutil.rmtree(self.path("asked"), ignore_errors=True)
                child = self.begin(command, tml=self.fake(f'mkdir -p "{self.path("asked")}/$$"\nsleep 300'))
                until(self.asked)
                child.send_signal(signal.SIGINT)
                said = f"{command.split()[0]}: interrupted\n".encode()
                self.assertEqual((child.communicate(timeout=PATIENCE), child.returncode), ((b"", said), 130))
                until(lambda: not any(map(is_running, self.asked())))

    def test_a_program_that_hangs_ends_with_what_is_ended_from_outside(self) -> None:
        fake = self.fake(f'mkdir -p "{self.path("asked")}/$$"\ncat >/dev/null; sleep 300')
        for number, command in ((signal.SIGTERM, COMMANDS[6]), (signal.SIGHUP, COMMANDS[7]), (signal.SIGTERM, COMMANDS[8])):
            with self.subTest(command):
                shutil.rmtree(self.path("asked"), ignore_errors=True)
                child = self.begin(command, tml=fake)
                until(self.asked)
                child.send_signal(number)
                self.assertEqual((child.communicate(timeout=PATIENCE), child.returncode), ((b"", b""), -number))
                until(lambda: not any(map(is_running, self.asked())))

    def asked(self) -> list[int]:
        """The programs that have been asked, by the folders with their numbers."""
        return [int(number) for number in os.listdir(self.path("asked"))] if os.path.exists(self.path("asked")) else []


if __name__ == "__main__":
    unittest.main()
