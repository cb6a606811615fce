"""The colours of pages, for light and for dark screens. A test reads that each has contrast to those that it is seen on."""

from __future__ import annotations

LIGHT = {
    "paper": "#ffffff",
    "odd": "#eef1f4",
    "ink": "#111111",
    "soft": "#505860",
    "line": "#c3cad1",
    "strong": "#16324f",
    "mark": "#f6b800",
    "near": "#fdeebf",
    "wrong": "#a40000",
    "good": "#00633a",
    "touch": "#7a4400",
    "link": "#8a1c5c",
}
DARK = {
    "paper": "#15181c",
    "odd": "#1f242a",
    "ink": "#e8e8e8",
    "soft": "#a8b0b8",
    "line": "#4a525a",
    "strong": "#a9cdf0",
    "mark": "#6b4e00",
    "near": "#453a17",
    "wrong": "#ff9c8f",
    "good": "#7fd1a2",
    "touch": "#f0b95c",
    "link": "#f09cc8",
}


def variables() -> str:
    """The colours by their names, as a style begins."""
    light, dark = ("".join(f"--{name}:{colour};" for name, colour in colours.items()) for colours in (LIGHT, DARK))
    return f":root{{color-scheme:light dark;{light}}}\n@media screen and (prefers-color-scheme:dark){{:root{{{dark}}}}}\n"
