#!/usr/bin/env python3
"""Draws the README's pictures from a real run: draw.py ITEMTREE, the built program. It needs rsvg-convert (librsvg2-bin), tmux and Neovim.

outline.png is a file with its outline beside it; editor.png is Neovim's screen.
"""
import os
import pathlib
import subprocess
import sys
import tempfile
import time
from xml.sax.saxutils import escape

HERE = pathlib.Path(__file__).resolve().parent
FILE = HERE.parent.parent / "tests" / "itemtree" / "shapes.rs"
WIDE, HIGH = 7.83, 19  # of a character of the font, in pixels
INK, PALE, EDGE, BLUE, GREEN, RED, BROWN = "#1f2328", "#8c959f", "#d0d7de", "#0969da", "#1a7f37", "#cf222e", "#9a6700"

TYPED = """\
use std::fmt;

pub struct Circle {
    radius: f64,
}

impl Circle {
    pub fn area(&self) -> f64 {
        3.0 * self.radius * self.radius
    }
}

use std::fmt;

fn perimeter(

#[cfg(test)]
mod tests;
"""


class Picture:
    def __init__(self, width, height):
        self.size, self.parts = (width, height), []

    def box(self, x, y, width, height, fill="#ffffff", edge=EDGE):
        self.parts.append(f'<rect x="{x}" y="{y}" width="{width}" height="{height}" rx="6" fill="{fill}" stroke="{edge}"/>')

    def text(self, x, y, words, fill=INK, weight="normal"):
        self.parts.append(f'<text x="{x}" y="{y}" fill="{fill}" font-weight="{weight}" xml:space="preserve">{escape(words)}</text>')

    def line(self, points, stroke=BLUE):
        path = " ".join(f"{'L' if at else 'M'}{x},{y}" for at, (x, y) in enumerate(points))
        self.parts.append(f'<path d="{path}" fill="none" stroke="{stroke}" stroke-opacity="0.55"/>')

    def write(self, name):
        width, height = self.size
        whole = (
            f'<svg xmlns="http://www.w3.org/2000/svg" width="{width}" height="{height}" '
            f'font-family="DejaVu Sans Mono" font-size="13"><rect width="{width}" height="{height}" fill="#f6f8fa"/>{"".join(self.parts)}</svg>'
        )
        subprocess.run(["rsvg-convert", "-o", HERE / name], input=whole.encode(), check=True)


def draw_outline(program):
    source = FILE.read_text().splitlines()
    said = subprocess.run([program, "outline", FILE.name], cwd=FILE.parent, capture_output=True, text=True, check=True).stdout.splitlines()
    left, right, top = 16, 612, 44
    picture = Picture(1064, top + HIGH * len(source) + 24)
    picture.text(left, 26, FILE.name, PALE)
    picture.text(right, 26, f"itemtree outline {FILE.name}", PALE)
    picture.box(left - 8, top - 8, 540, HIGH * len(source) + 16)
    picture.box(right - 8, top - 8, 452, HIGH * len(source) + 16)
    for at, line in enumerate(source):
        y = top + HIGH * at + 13
        picture.text(left, y, f"{at + 1:2}", PALE)
        picture.text(left + 3.5 * WIDE, y, line, GREEN if line.lstrip().startswith("//") else INK)
    step = HIGH * (len(source) - 1) / max(len(said) - 1, 1)
    for at, row in enumerate(said):
        place, _, item = row.partition(": ")
        line = int(place.split(":")[1])
        y = top + step * at + 13
        picture.text(right, y, place.partition(":")[2].rjust(6), BLUE)
        picture.text(right + 8 * WIDE, y, item, PALE if item.endswith("(inactive)") else INK)
        picture.line([(left + 536, top + HIGH * (line - 1) + 8), (right - 12, y - 5)])
    picture.write("outline.png")


def screen_of(program):
    """The lines of Neovim's screen, over TYPED."""
    with tempfile.TemporaryDirectory() as folder:
        at = pathlib.Path(folder)
        (at / "typed.rs").write_text(TYPED)
        words = ["tmux", "-L", "itemtree", "-f", "/dev/null"]
        editor = ["env", f"ITEMTREE={program}", "nvim", "-u", "NONE", "-n", "-S", str(HERE / "editor.lua")]
        subprocess.run([*words, "new-session", "-d", "-x", "100", "-y", "27", *editor], cwd=folder, env={**os.environ, "TERM": "xterm"}, check=True)
        while not (at / "shown").exists():
            time.sleep(0.1)
        time.sleep(0.5)
        said = subprocess.run([*words, "capture-pane", "-p"], capture_output=True, text=True, check=True).stdout
        subprocess.run([*words, "kill-server"], check=True)
    return said.rstrip().splitlines()


def draw_editor(program):
    lines = screen_of(os.path.abspath(program))
    picture = Picture(832, HIGH * len(lines) + 32)
    picture.box(8, 8, 816, HIGH * len(lines) + 16)
    for at, line in enumerate(lines):
        y = 30 + HIGH * at
        code, mark, told = line.partition("■")
        color = {"E": RED, "W": BROWN}.get(line[:1], PALE)
        is_bar = line.startswith(("typed.rs ", "[Quickfix"))
        picture.text(20, y, code[:5] if code[:5].strip(" EW0123456789") == "" else "", color)
        picture.text(20, y, code if code[:5].strip(" EW0123456789") else " " * 5 + code[5:], PALE if is_bar or line == "~" else INK)
        picture.text(20 + WIDE * len(code), y, mark + told, color)
    picture.write("editor.png")


draw_outline(sys.argv[1])
draw_editor(sys.argv[1])
