"""Other forms of a picture, as the reader of pictures takes them: its SVG, of which all geometry is replaced by that of the other form."""

from __future__ import annotations

import re
import xml.etree.ElementTree as ElementTree
import zlib
from collections.abc import Iterator

from picture_reader import SVG, Path
from tml_corpus.figure.tikz_form import escaped

Shapes = list[Path]
"""The paths of a shape, in the order in which they are painted."""

PLACE = re.compile(r"\((-?[\d.]+),(-?[\d.]+)\)")


def shapes_of(root: ElementTree.Element) -> list[list[ElementTree.Element]]:
    """Of each shape of a picture the elements that are painted."""
    clips = {id(one) for clip in root.iter(SVG + "clipPath") for one in clip.iter()}
    found = [[one for one in child.iter() if one.tag in (SVG + "rect", SVG + "path", SVG + "text")] for child in root]
    return [[one for one in shape if id(one) not in clips and one.get("class") != "halo"] for shape in found if shape]


def moved(element: ElementTree.Element, path: Path) -> None:
    """Gives an element the geometry of a path."""
    xs, ys = [x for part in path for x, _ in part], [y for part in path for _, y in part]
    if element.tag == SVG + "rect":
        sides = {"x": min(xs), "y": min(ys), "width": max(xs) - min(xs), "height": max(ys) - min(ys)}
        element.attrib.update({key: str(number) for key, number in sides.items()})
    else:
        element.set("d", "".join("M" + "L".join(f"{x} {y}" for x, y in part) for part in path))


def by_pdf(source: str, content: bytes) -> str:
    """The picture as a PDF of the library cairosvg has it, whose operators are those of the SVG one by one."""
    root = ElementTree.fromstring(source.encode())
    drawn = [one for shape in shapes_of(root) for one in shape if one.tag != SVG + "text"]
    for element, path in zip(drawn, painted(operators(content)), strict=True):
        moved(element, path)
    return ElementTree.tostring(root, encoding="unicode")


def operators(content: bytes) -> list[str]:
    """The words of the stream of a PDF that draws, without its texts."""
    streams = []
    for found in re.finditer(rb"stream\r?\n", content):
        try:
            streams.append(zlib.decompressobj().decompress(content[found.end() :]))
        except zlib.error:
            continue
    [drawing] = [one.decode("latin-1") for one in streams if re.match(rb"\s*1 0 0 -1 0 [\d.]+ cm\n", one)]
    return re.sub(r"\bBT\b.*?\bET\b", " ", drawing, flags=re.DOTALL).split()


def painted(words: list[str]) -> Iterator[Path]:
    """The paths that are painted, apart from the halos of texts. The curve of a corner has the corner's two sides."""
    path: Path = []
    numbers: list[float] = []
    width = 1.0
    for word in words:
        if re.fullmatch(r"-?[\d.]+", word):
            numbers.append(float(word))
            continue
        points = list(zip(numbers[::2], numbers[1::2], strict=False))
        if word == "m":
            path.append(points[-1:])
        elif word == "re":
            (x, y), (broad, high) = points[-2:]
            path.append([(x, y), (x + broad, y), (x + broad, y + high), (x, y + high), (x, y)])
        elif word in ("l", "c"):
            path[-1] += points
        elif word == "w":
            width = numbers[-1]
        elif word in ("S", "f", "B", "n"):
            if word != "n" and not (word == "S" and abs(width - 2) < 0.01):
                yield [part for part in path if len(part) > 1]
            path = []
        numbers = []


def by_tex(source: str, content: str) -> str:
    """The picture as TeX has it."""
    root = ElementTree.fromstring(source.encode())
    commands = re.findall(r"^\\(fill|draw|node)(\[.*)$", content.split("\\useasboundingbox")[1], re.MULTILINE)
    taken = iter(commands)
    for shape in shapes_of(root):
        kinds = [one.tag.removeprefix(SVG) for one in shape]
        if kinds[-1] == "text":
            kind, words = next(taken)
            assert (kind, words[words.index(") {") + 3 : -2]) == ("node", escaped(shape[-1].text or "")), words
        elif kinds[0] == "path":
            moved(shape[0], commanded(*next(taken)))
        else:
            # A rectangle is filled, perhaps with a pattern, and then has a frame.
            parts = [commanded(*next(taken)) for _ in range(3 if len(kinds) == 3 else 2)]
            for element, path in zip(shape, parts[-len(shape) :] if len(shape) > 1 else parts, strict=False):
                moved(element, path)
    assert next(taken, None) is None
    return ElementTree.tostring(root, encoding="unicode")


def commanded(kind: str, words: str) -> Path:
    """The path of a command of TikZ."""
    assert kind in ("fill", "draw"), words
    way = words.partition("] ")[2]
    found = [[(float(x), float(y)) for x, y in PLACE.findall(part)] for part in way.split("  ")]
    if " rectangle " not in way:
        return found
    [[(x, y), (end, bottom)]] = found
    return [[(x, y), (end, y), (end, bottom), (x, bottom), (x, y)]]
