"""Judgements as JUnit has them: a test case for each file."""

from __future__ import annotations

from xml.etree import ElementTree

from ..files.finding import shown
from .formats import Summary, Text, first_failure
from .judgement import Judgement


class Suite:
    """Test cases as JUnit has them. The counts stand at the beginning, so all is printed at the end, in ASCII."""

    def __init__(self, name: str) -> None:
        self.element = ElementTree.Element("testsuite", name=name)
        self.failures = self.errors = 0

    def case(self, path: str) -> ElementTree.Element:
        """A test case."""
        return ElementTree.SubElement(self.element, "testcase", classname="tml", name=shown(path))

    def error(self, path: str, problem: str) -> None:
        """A test case of a file that was not judged."""
        ElementTree.SubElement(self.case(path), "error", message=shown(problem))
        self.errors += 1

    def failure(self, path: str, kind: str, sentence: str, body: str) -> None:
        """A test case that failed."""
        ElementTree.SubElement(self.case(path), "failure", type=kind, message=shown(sentence)).text = body
        self.failures += 1

    def success(self, path: str, body: str) -> None:
        """A test case of a file of which there is perhaps something to report."""
        case = self.case(path)
        if body:
            ElementTree.SubElement(case, "system-out").text = body

    def file(self, path: str, problem: str | None, failure: tuple[str, str] | None, body: str) -> None:
        """The test case of a file: why it was not judged, or what it failed for, and what is reported of it."""
        if problem is not None:
            self.error(path, problem)
        elif failure is not None:
            self.failure(path, *failure, body)
        else:
            self.success(path, body)

    def text(self) -> str:
        """The whole report."""
        counts = {"tests": str(len(self.element)), "failures": str(self.failures), "errors": str(self.errors)}
        whole = ElementTree.Element("testsuites", counts)
        self.element.attrib.update(counts)
        whole.append(self.element)
        ElementTree.indent(whole)
        text = ElementTree.tostring(whole, encoding="us-ascii", xml_declaration=False).decode()
        return f'<?xml version="1.0" encoding="UTF-8"?>\n{text}\n'


class JUnit:
    """One test case for each file."""

    summary_apart = True

    def __init__(self, with_source: bool, strict: bool) -> None:
        self.lines, self.strict = Text(with_source), strict
        self.suite = Suite("tml check")

    def file(self, judgement: Judgement) -> str:
        self.suite.file(judgement.path, judgement.problem, first_failure(judgement, self.strict), self.lines.file(judgement))
        return ""

    def plain(self, path: str) -> str:
        return self.file(Judgement(path))

    def end(self, summary: Summary) -> str:
        return self.suite.text()
