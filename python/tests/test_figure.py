"""`tml-corpus timeline --bare`: pictures for a paper of timelines and of clashes, as SVG, TeX and PDF; in colour, and in grey."""

from __future__ import annotations

import importlib.util
import itertools
import os
import re
import shutil
import subprocess
import unittest
import xml.etree.ElementTree as ElementTree
from unittest import mock

from browser import needs_browser
from corpus import COMPANION, TML, TOP, CorpusTest, document, match_in, needs_matrix, needs_score, text_at
from looking import contrast, luminance
from picture_reader import Picture
from processes import WITH_PACKAGES, with_own_bytecode
from test_timeline_page import event, link, mended
from tml_corpus.asking.program import CannotRun
from tml_corpus.figure.draw import width_of
from tml_corpus.figure.layout import packed, spread
from tml_corpus.figure.pdf_form import MISSING, pdf
from tml_corpus.figure.shapes import BLACK, FILLINGS, GREY, Figure, Text
from tml_corpus.figure.svg_form import svg
from tml_corpus.figure.tikz_form import escaped

SVG = "{http://www.w3.org/2000/svg}"

SIGHTS = {
    "protanopia": ((0.152, 1.053, -0.205), (0.115, 0.786, 0.099), (-0.004, -0.048, 1.052)),
    "deuteranopia": ((0.367, 0.861, -0.228), (0.280, 0.673, 0.047), (-0.012, 0.043, 0.969)),
    "tritanopia": ((1.256, -0.077, -0.179), (-0.078, 0.931, 0.148), (0.005, 0.691, 0.304)),
    "all colours": ((1.0, 0.0, 0.0), (0.0, 1.0, 0.0), (0.0, 0.0, 1.0)),
}
"""How colours look to those who lack a kind of cones, by Machado, Oliveira and Fernandes (2009)."""

PACKAGES = ("standalone.cls", "tikz.sty", "lmodern.sty", "iftex.sty")


def has_tex() -> bool:
    """Whether pdfTeX is installed, with what a picture needs."""
    if shutil.which("pdflatex") is None or shutil.which("kpsewhich") is None:
        return False
    found = subprocess.run(["kpsewhich", *PACKAGES], capture_output=True, text=True, check=False).stdout
    return len(found.splitlines()) == len(PACKAGES)


needs_library = unittest.skipUnless(importlib.util.find_spec("cairosvg"), "no library cairosvg")
needs_poppler = unittest.skipUnless(all(map(shutil.which, ("pdfinfo", "pdftotext", "pdftoppm"))), "no programs of poppler-utils")


def pages(path: str) -> tuple[str, float]:
    """The text of a PDF, with a form feed after each page, and the width of its first page in points."""
    text = subprocess.run(["pdftotext", path, "-"], capture_output=True, text=True, check=True).stdout
    said = subprocess.run(["pdfinfo", path], capture_output=True, text=True, check=True).stdout
    return text, float(match_in(r"Page size: +([\d.]+) x", said)[1])


@needs_matrix
@needs_score
class FigureTest(CorpusTest):
    def made(self, content: str, name: str = "d.svg", *words: str, status: int = 0) -> str:
        """The picture of a document, as text."""
        self.write("d.xml", content)
        printed, lines, error = self.run_it("timeline", "--bare", "d.xml", "-o", name, *words)
        self.assertEqual((printed, error), (status, ""), lines)
        with open(self.path(name), encoding="utf-8", errors="replace") as file:
            return file.read()

    def texts(self, picture: str) -> list[str]:
        """The texts of a picture, without their halos."""
        texts = ElementTree.fromstring(picture.encode()).iter(SVG + "text")
        return [one.text or "" for one in texts if one.get("fill") != "none"]

    def boxes(self, picture: str) -> list[tuple[float, float, float]]:
        """The left and right edges and the tops of the bars and dates, as far as they reach."""
        return [(bar.left, bar.right, bar.top) for bar in Picture.read(picture).whole_bars()]


class Timelines(FigureTest):
    def test_it_is_as_broad_as_it_was_asked_for(self) -> None:
        for words, width in (((), "84.00mm"), (("--width", "174mm"), "174.00mm"), (("--width", "3in"), "76.20mm")):
            root = ElementTree.fromstring(self.made(mended(), "d.svg", *words).encode())
            self.assertEqual(root.get("width"), width)
            right = float(root.get("viewBox", "").split(" ")[2])
            self.assertTrue(all(0 <= left < end <= right for left, end, _ in self.boxes(self.made(mended(), "d.svg", *words))))

    def test_bars_do_not_overlap(self) -> None:
        for one, other in itertools.combinations(self.boxes(self.made(mended())), 2):
            self.assertTrue(one[2] != other[2] or one[1] <= other[0] + 0.02 or other[1] <= one[0] + 0.02, (one, other))

    def test_texts_and_dates_with_their_breaks(self) -> None:
        picture = self.made(mended())
        shown = self.texts(picture)
        words = "warned failed walked closed called waited agreed turned reopened said".split()
        self.assertLessEqual({*words, "9 March 1998", "11 March"}, {*shown})
        self.assertTrue({"12 March", "12 Mar"} & {*shown})
        breaks = re.findall(r'<path d="M([\d.]+) [\d.]+L[\d. ]+" fill="none" class="break"', picture)
        self.assertEqual(len(breaks), 2, "two strokes of one break, between the ninth and the eleventh")
        dates = sorted(self.boxes(picture))
        tops = min(top for _, _, top in dates)
        nine, eleven, _ = (one for one in dates if one[2] == tops)
        self.assertTrue(all(nine[1] - 3 < float(x) < eleven[0] + 3 for x in breaks))

    def test_lines_say_what_bars_do_not(self) -> None:
        picture = Picture.read(self.made(mended()))
        stated = {(one.first, one.second) for one in picture.statements() if one.kind == "line before"}
        self.assertEqual(stated, {("ei2+", "ei1-"), ("ei7+", "ei8-"), ("ei5-", "ei6-")})

    def test_the_legend_has_what_the_picture_has(self) -> None:
        chain = "".join(map(event, range(3))) + link(0, "BEFORE", 1) + link(1, "BEFORE", 2)
        free = "".join(map(event, range(3)))
        inner = "".join(map(event, range(5))) + "".join(link(number, "BEFORE", number + 1) for number in range(2)) + link(3, "BEFORE", 4)
        line = "start or end, before all to its right; width says nothing"
        self.assertEqual(self.texts(self.made(document(chain))), ["x", "x", "x", "event", line, "lasts"])
        self.assertEqual(self.texts(self.made(document(free))), ["Nothing says when:", "x (i0)", "x (i1)", "x (i2)"])
        ends = "Lines at the left third of a bar: its start; right: its end; middle: end to start."
        self.assertIn(ends, " ".join(self.texts(self.made(mended()))))
        self.assertNotIn("Lines", " ".join(self.texts(self.made(document(inner)))))

    def test_chosen_rows(self) -> None:
        picture = self.made(mended(), "d.svg", "--rows", "ei4,ei5,t1")
        self.assertLessEqual({"9 March 1998", "closed", "waited"}, set(self.texts(picture)))
        self.assertEqual({bar.name for bar in Picture.read(picture).bars}, {"ei4", "ei5", "t1"})
        self.assertNotIn("walked", picture)
        self.write("d.xml", mended())
        for name in ("d.svg", "d.html"):
            self.assertEqual(self.run_it("timeline", "d.xml", "--rows", "ei4,ei5,t1", "-o", name)[0], 0)
        status, lines, _ = self.run_it("timeline", "d.xml", "--rows", "ei4,nobody", "-o", "d.svg")
        self.assertEqual((status, lines), (2, ["d.xml: not judged: no interval is called nobody"]))

    def test_rows_around_one_and_between_two(self) -> None:
        for words, names in (
            (("--around", "ei5"), {"ei4", "ei5", "ei6", "ei9"}),
            (("--around", "ei4"), {"t1", "ei3", "ei4"}),
            (("--between", "t1", "t1"), {"t1", "ei3", "ei4"}),
            (("--between", "ei4", "t2"), {"ei4", "t2", "ei5", "ei6", "ei9"}),
            (("--rows", "t0", "--around", "ei4"), {"t0", "t1", "ei3", "ei4"}),
        ):
            picture = Picture.read(self.made(mended(), "d.svg", *words))
            self.assertEqual({bar.name for bar in picture.bars} | picture.listed.keys(), names, words)
        self.write("d.xml", mended())
        lines = self.run_it("timeline", "d.xml", "--around", "ei4", "-o", "d.svg")[1]
        self.assertEqual(lines, ["d.xml: drawn in d.svg: 3 intervals, 3 links, an axis of 6 places; 10 intervals left out"])

    def test_how_much_a_page_has_room_for(self) -> None:
        for count, most in ((34, 128), (60, 257), (500, None)):
            days = [f'<TIMEX3 tid="t{day}" type="DATE" value="1998-01-{day + 1:02}"/>' for day in range(9)]
            links = [link(number, "BEFORE", number + 2) for number in range(0, count - 2, 3)]
            links += [
                f'<TLINK eventInstanceID="i{number}" relatedToTime="t{8 * number // count}" relType="IS_INCLUDED"/>'
                for number in range(0, count, 2)
            ]
            self.write("d.xml", document("".join(map(event, range(count))) + "".join(days + links)))
            lines = self.run_it("timeline", "--bare", "d.xml", "-o", "d.svg")[1]
            with open(self.path("d.svg"), encoding="utf-8") as file:
                high = float(match_in(r' height="([\d.]+)mm"', file.read())[1])
            said = f"d.xml: {high:.0f} mm are more than a page has: choose intervals by --rows ei1,t1 or --around ei1 or --between t1 t2"
            self.assertEqual((most is None or high < most, lines[1:]), (True, [said] if most is None else []), (count, high))

    def test_without_the_words_around(self) -> None:
        self.write("d.xml", mended())
        for words, is_there in (((), True), (("--no-context",), False)):
            self.assertEqual(self.run_it("timeline", "d.xml", "-o", "d.svg", *words)[0], 0)
            with open(self.path("d.svg"), encoding="utf-8") as file:
                self.assertEqual("The port" in file.read(), is_there)

    def test_standard_output(self) -> None:
        self.write("d.xml", mended())
        for words in ((), ("--bare",)):
            status, lines, error = self.run_it("timeline", "d.xml", "-o", "-", *words)
            self.assertEqual((status, error), (0, "d.xml: drawn in -: 13 intervals, 13 links, an axis of 13 places\n"))
            ElementTree.fromstring("\n".join(lines).encode())

    def test_documents_of_all_kinds(self) -> None:
        times = '<TIMEX3 tid="a" type="DATE" value="1998"/><TIMEX3 tid="b" type="DATE" value="1998-01-XX"/><TIMEX3 tid="c" type="SET"/>'
        negated = '<EVENT eid="e9" class="STATE">went</EVENT><MAKEINSTANCE eiid="i9" eventID="e9" polarity="NEG"/>'
        contents = ["", event(1), times, event(1) + times + negated + link(1, "BEFORE", 9), "".join(map(event, range(300)))]
        contents.append("".join(map(event, range(300))) + "".join(link(number, "BEFORE", number + 1) for number in range(299)))
        for content in contents:
            with self.subTest(content[:60]):
                picture = self.made(document(content))
                ElementTree.fromstring(picture.encode())
                self.assertNotIn("<pattern", picture, "a browser prints patterns as dots")
                self.assertEqual("clipPath" in picture, "TIMEX3" in content)

    def test_what_does_not_go_together(self) -> None:
        self.write("d.xml", mended())
        rows = [
            (("--width", "84mm", "-o", "d.svg"), "--width goes with --bare"),
            (("-o", "d.pdf"), "a picture in .pdf is one for a paper: add --bare"),
            (("--bare", "-o", "d.html"), "--bare draws .svg, .pdf or .tex"),
            (("--bare", "--seconds", "-o", "d.svg"), "--bare goes neither with --seconds nor with --text-order"),
            (("--bare", "--width", "1mm", "-o", "d.svg"), "1mm is not a width from 40mm to 1000mm"),
            (("--bare", "--width", "84", "-o", "d.svg"), "84 is not a width"),
        ]
        for words, said in rows:
            status, lines, error = self.run_it("timeline", "d.xml", *words)
            self.assertEqual(status, 2)
            self.assertIn(said, "\n".join(lines) + error)
        self.assertEqual(os.listdir(self.folder), ["d.xml"])


class Clashes(FigureTest):
    def test_a_ring_of_points_and_a_line_for_each_step(self) -> None:
        with open(os.path.join(TOP, "samples", "port.xml"), encoding="utf-8") as file:
            content = file.read()
        picture = self.made(content, status=1)
        points = [one for one in ElementTree.fromstring(picture.encode()).iter(SVG + "rect") if one.get("height") == "4.4"]
        self.assertEqual(len(points), 5)
        shown = self.texts(picture)
        for text in ("end of waited", "end of closed", "end of Monday", "start of Wednesday", "start of reopened"):
            self.assertIn(text, shown)
        said = " ".join(shown)
        self.assertIn("1 start of reopened is no later than end of waited, since waited IBEFORE reopened (l12: ei5 IBEFORE ei9)", said)
        self.assertIn("So the start of reopened would be before itself.", said)
        self.assertEqual(picture.count('stroke-dasharray="1.6 1.2"'), 2)
        self.assertEqual(self.run_it("timeline", "--bare", "d.xml", "-o", "d.svg")[1][-1], "d.xml: its first clash is drawn in d.svg")

    def test_one_link_and_many(self) -> None:
        def ring(count: int) -> str:
            return "".join(map(event, range(count))) + "".join(link(number, "BEFORE", (number + 1) % count) for number in range(count))

        for content, points, steps in ((event(1) + link(1, "BEFORE", 1), 2, 1), (ring(3), 3, 3), (ring(12), 12, 12), (ring(13), 0, 13)):
            picture = self.made(document(content), status=1)
            said = " ".join(self.texts(picture))
            self.assertEqual(picture.count('height="4.4"'), points)
            self.assertEqual(said.count("since x BEFORE x"), steps)
            self.assertEqual(said.count("is before"), max(points, steps))
            self.assertEqual("Solid: before; dashed: no later than." in said, points > 0)
            self.assertEqual("an interval starts before it ends" in said, points == 2)

    def test_names_of_points_are_apart(self) -> None:
        for count in range(3, 13):
            links = "".join(link(number, "BEFORE", (number + 1) % count) for number in range(count))
            picture = self.made(document("".join(event(number, f"event {number}") for number in range(count)) + links), status=1)
            names = [one for one in ElementTree.fromstring(picture.encode()).iter(SVG + "text") if one.get("fill") == "none"]
            self.assertEqual(len(names), count)
            middles = [float(one.attrib["y"]) for one in names if one.get("text-anchor") == "middle"]
            self.assertEqual(len(middles), len({*middles}), f"{count} points")

    def test_a_table_of_many_steps(self) -> None:
        links = "".join(link(number, "BEFORE", (number + 1) % 14) for number in range(14))
        content = document("".join(event(number, "a long name of an event, " * 4) for number in range(14)) + links)
        for width in ("40mm", "174mm"):
            shapes = list(ElementTree.fromstring(self.made(content, "d.svg", "--width", width, status=1).encode()).iter(SVG + "text"))
            rows = [float(one.get("y", "")) for one in shapes if (one.text or "").isdigit()]
            self.assertEqual(len(rows), 14)
            self.assertEqual(rows, sorted({*rows}))
            cells = [one for one in shapes if one.get("text-anchor") is None and float(one.get("y", "")) <= rows[-1]]
            self.assertEqual(len({one.get("x") for one in cells}), 3, "columns")


class Faults(FigureTest):
    def test_the_place_is_that_of_the_message(self) -> None:
        content = document(event(1) + link(1, "BEFORE", 3))
        said = " ".join(self.texts(self.made(content, status=1)))
        line, column = re.findall(r"^d\.xml:(\d+):(\d+): error", "\n".join(self.run_it("timeline", "--bare", "d.xml", "-o", "d.svg")[1]))[0]
        self.assertIn(f"Line {line}, column {column}: UnknownReference", said)


class Samples(FigureTest):
    """That the pictures of the pages are those of the command."""

    def test_they_are_what_is_drawn(self) -> None:
        for name, picture in (("ferry.xml", "ferry-bare.svg"), ("port.xml", "port-clash.svg")):
            self.write(name, text_at("samples", name))
            self.run_it("timeline", "--bare", name, "-o", "made.svg")
            with open(self.path("made.svg"), "rb") as made, open(os.path.join(TOP, "samples", picture), "rb") as kept:
                self.assertEqual(made.read(), kept.read(), name)


class Forms(FigureTest):
    HOSTILE = r"\input{/etc/passwd} $x$ #1 %&_^~{}" + '"<>|`'

    def test_tex(self) -> None:
        text = self.HOSTILE.replace("&", "&amp;").replace("<", "&lt;")
        made = self.made(document(event(1, text) + event(2) + link(1, "BEFORE", 2)), "d.tex", "--width", "174mm")
        self.assertIn(r"\documentclass[border=0pt]{standalone}", made)
        self.assertEqual(made.replace(r"\{", "").count("{"), made.replace(r"\}", "").count("}"))
        self.assertFalse(re.search(r"\\(input|include|includegraphics|write|openin)\b(?!enc)", made))
        self.assertEqual(made.count(r"\begin"), made.count(r"\end"))
        for line in made.split(r"\begin{tikzpicture}")[1].splitlines()[1:-2]:
            self.assertRegex(line, r"^\\(useasboundingbox|fill|draw|node)\b.*;$")

    def test_signs_of_tex(self) -> None:
        self.assertEqual(escaped(r"\a{"), r"\textbackslash{}a\{")
        self.assertEqual(escaped("50% & x_1 -- #"), r"50\% \& x\_1 {-}{-} \#")

    @unittest.skipUnless(has_tex(), "no TeX with what a picture needs")
    def test_tex_can_be_compiled(self) -> None:
        for name, content, status in (("a", mended(), 0), ("b", mended().replace('relType="AFTER"', 'relType="BEFORE"'), 1)):
            self.made(content, f"{name}.tex", status=status)
            words = ["pdflatex", "-interaction=batchmode", f"{name}.tex"]
            done = subprocess.run(words, cwd=self.folder, stdin=subprocess.DEVNULL, check=False)
            self.assertEqual(done.returncode, 0)

    @needs_browser
    @needs_poppler
    def test_pdf(self) -> None:
        self.made(mended(), "d.pdf")
        text, width = pages(self.path("d.pdf"))
        self.assertIn("waited", text)
        self.assertEqual(text.count("\f"), 1)
        self.assertAlmostEqual(width, 84 * 72 / 25.4, delta=1)

    @needs_library
    @needs_poppler
    def test_pdf_by_the_library(self) -> None:
        self.write("d.xml", mended())
        words = [*WITH_PACKAGES, COMPANION, "timeline", "--tml", TML, "--bare", "d.xml", "-o", "d.pdf"]
        environment = {**with_own_bytecode(), "PATH": self.folder}
        done = subprocess.run(words, cwd=self.folder, env=environment, capture_output=True, text=True, check=False)
        self.assertEqual((done.returncode, done.stderr), (0, ""))
        text, width = pages(self.path("d.pdf"))
        self.assertEqual((text.count("\f"), text.count("waited"), text.count("reopened")), (1, 1, 1))
        self.assertAlmostEqual(width, 84 * 72 / 25.4, delta=1)

    @needs_library
    @needs_poppler
    def test_letters_are_seen_over_their_halos(self) -> None:
        source = svg(Figure(60, "x", [Text(30, 14, "MMM", 12, "middle", halo=True)], 20)).encode()
        program = "import sys, cairosvg; cairosvg.svg2pdf(file_obj=sys.stdin.buffer, write_to=sys.stdout.buffer)"
        made = subprocess.run([*WITH_PACKAGES, "-c", program], env=with_own_bytecode(), input=source, capture_output=True, check=True)
        drawn = subprocess.run(["pdftoppm", "-gray"], input=made.stdout, capture_output=True, check=True).stdout
        self.assertGreater(sum(dot < 64 for dot in drawn.split(b"\n255\n", 1)[1]), 100)

    def test_the_library_is_asked_first(self) -> None:
        library = mock.Mock()
        library.svg2pdf.return_value = b"%PDF"
        with mock.patch("importlib.import_module", return_value=library), mock.patch("subprocess.run", side_effect=AssertionError):
            self.assertEqual(pdf(Figure(100, "x")), b"%PDF")
        ElementTree.fromstring(library.svg2pdf.call_args.kwargs["bytestring"])

    def test_where_nothing_makes_a_pdf(self) -> None:
        with mock.patch("shutil.which", return_value=None), mock.patch("importlib.import_module", side_effect=ImportError):
            with self.assertRaisesRegex(CannotRun, re.escape(MISSING)):
                pdf(Figure(100, "x"))


class Parts(unittest.TestCase):
    def test_widths(self) -> None:
        self.assertEqual([round(width_of(text), 2) for text in ("84mm", "8.4cm", "3in", "240pt")], [238.11, 238.11, 216.0, 239.1])
        for text in ("", "84", "-84mm", "84 mm", "1e9mm", "nan", "99999mm", "\u0668\u0664mm"):
            with self.subTest(text), self.assertRaises(ValueError):
                width_of(text)

    def test_lanes(self) -> None:
        self.assertEqual(packed([(0, 10), (5, 8), (8, 12), (10, 11)]), [0, 1, 1, 0])
        self.assertEqual(packed([]), [])

        self.assertEqual(packed([(0, 1), (2, 3), (4, 5)], [[], [0], [0, 1]]), [0, 1, 2])

    def test_places(self) -> None:
        self.assertEqual(spread([], 4, 30.0), [0.0, 10.0, 20.0, 30.0])
        self.assertEqual([round(one, 3) for one in spread([(0, 1, 20.0)], 4, 30.0)], [0.0, 20.0, 25.0, 30.0])
        self.assertEqual([round(one, 3) for one in spread([(0, 2, 24.0)], 4, 30.0)], [0.0, 12.0, 24.0, 30.0])
        self.assertEqual((spread([], 1, 30.0), spread([], 0, 30.0)), ([0.0], []))
        self.assertLessEqual(spread([(0, 1, 90.0), (1, 2, 90.0)], 3, 30.0)[-1], 30.001)


class Colours(unittest.TestCase):
    """That kinds of bars differ in grey and to those who see few colours, by brightness, colour or texture."""

    KINDS = ("event", "unasserted", "exact", "within", "free")

    def seen(self, colour: str, sight: str) -> tuple[float, ...]:
        """A colour as it looks, in its parts from 0 to 1."""
        parts = [int(colour[place : place + 2], 16) / 255 for place in (1, 3, 5)]
        linear = [part / 12.92 if part <= 0.04045 else ((part + 0.055) / 1.055) ** 2.4 for part in parts]
        mixed = [min(max(sum(share * part for share, part in zip(row, linear, strict=True)), 0.0), 1.0) for row in SIGHTS[sight]]
        return tuple(float(one ** (1 / 2.4)) for one in mixed)

    def test_labels_can_be_read(self) -> None:
        for kind in self.KINDS:
            self.assertGreaterEqual(contrast(BLACK, FILLINGS[kind][0].lower()), 4.5, kind)
        self.assertGreaterEqual(contrast(GREY, "#ffffff"), 4.5)

    def test_kinds_differ(self) -> None:
        for one, other in itertools.combinations(self.KINDS, 2):
            (first, texture), (second, other_texture) = FILLINGS[one], FILLINGS[other]
            with self.subTest(f"{one}, {other}"):
                self.assertTrue(texture != other_texture or abs(luminance(first) - luminance(second)) > 0.2)
                for sight in SIGHTS:
                    pairs = zip(self.seen(first, sight), self.seen(second, sight), strict=True)
                    self.assertTrue(texture != other_texture or sum((a - b) ** 2 for a, b in pairs) ** 0.5 > 0.25, sight)


if __name__ == "__main__":
    unittest.main()
