"""The tables of docs/PROFILE.md, "Streams" and "Image files", beside the bytes that the program writes: for checks/rules_examples."""

import pathlib
import re
import subprocess
import sys
import tempfile
from typing import NamedTuple

from lib import formats, tree

DOCUMENT = tree.TOP / "docs" / "PROFILE.md"
NOP = 0xD503201F


class Asked(NamedTuple):
    """A module, of which each number is another one, and a page of it."""

    profile: int
    size: int  # the bytes of a full page
    count: int
    entry: int
    module: int = 3
    index: int = 0

    def page_bytes(self):
        return min(self.size, 4 * self.count - self.size * self.index)


# What a cell on messages says, and the number that it means of a module.
CELLS = (
    (r"(\d+) for a module of profile 1, (\d+) for one of profile 2", lambda it, asked: int(it[asked.profile])),
    (r"(\d+) for a small page, (\d+) for a large one", lambda it, asked: int(it[1 + (asked.size == formats.LARGE_PAGE)])),
    (r"(\d+); of kind 4 also (\d+), for a module of large pages", lambda it, asked: int(it[1 + (asked.size == formats.LARGE_PAGE)])),
    (f"0 to {formats.MODULES - 1}", lambda it, asked: asked.module),
    (f"words of the module, 1 to {formats.MOST_WORDS:,}", lambda it, asked: asked.count),
    ("the word at which it is entered, below a", lambda it, asked: asked.entry),
    ("index of the page, any number", lambda it, asked: asked.index),
    (f"bytes of the payload, a multiple of 4: 4 to {formats.PAGE:,} of kind 2, 4 to {formats.LARGE_PAGE:,} of kind 5", lambda it, asked: asked.page_bytes()),
    (r"(\d+)", lambda it, asked: int(it[1])),
)
# The same of an image file; the code stands behind.
CONTENTS = (
    (r"`LFI1`, the bytes ([0-9a-f ]+)", lambda it, asked: int.from_bytes(bytes.fromhex(it[1]), "little")),
    (f"the number n of words, 1 to {formats.MOST_WORDS:,}", lambda it, asked: asked.count),
    ("the word at which it is entered, below n", lambda it, asked: asked.entry),
    ("the profile, 1 or 2, by which the code is judged and run", lambda it, asked: asked.profile),
    (r"the slot's base, `\((\d+)m \+ (\d+)\) \* 2\^(\d+)`", lambda it, asked: (int(it[1]) * asked.module + int(it[2])) << int(it[3])),
)


def fail(text):
    sys.exit(f"rules_examples: docs/PROFILE.md: {text}")


def part_of(heading):
    return DOCUMENT.read_text(encoding="utf-8").partition(f"\n## {heading}\n")[2].partition("\n## ")[0]


def rows_of(heading):
    """The rows of the table below a heading, by their cells."""
    return [[cell.strip() for cell in line.strip("|").split("|")] for line in part_of(heading).splitlines() if line.startswith("|")][2:]


def meant(cell, cells, asked):
    """The number that a cell means of a module."""
    found = ((re.fullmatch(pattern, cell), number) for pattern, number in cells)
    return next((number(it, asked) for it, number in found if it), None)


def header(column, asked):
    """The header of a message, by a column of the table."""
    size = int(re.search(r"a header of (\d+) bytes, all numbers little-endian", part_of("Streams"))[1])
    made = bytearray(b"\xee" * size)
    for places, field, *cells in rows_of("Streams"):
        first, last = (int(it) for it in re.fullmatch(r"(?=(\d+)).*?(\d+)", places).groups())
        number = meant(cells[column], CELLS, asked)
        if number is None or last >= size or number >> 8 * (last + 1 - first):
            fail(f"Streams: a header has no {field} with {cells[column]!r} at {places}")
        made[first : last + 1] = number.to_bytes(last + 1 - first, "little")
    return bytes(made)


def stream_of(code, asked):
    """A stream of the module, by the table."""
    made, at = header(0, asked), 0
    for index in range(-(-len(code) // asked.size)):
        page = asked._replace(index=index)
        made += header(1, page) + code[at : at + page.page_bytes()]
        at += page.page_bytes()
    return made + header(2, asked)


def image_of(code, asked):
    """The image file, by the table."""
    *rows, last = rows_of("Image files")
    made = bytearray(b"\xee" * int(last[0]))
    if last[1:] != ["4n", "the code"] or "All numbers are little-endian, and nothing follows the code." not in part_of("Image files"):
        fail(f"Image files: the last row is {last}")
    for offset, size, content in rows:
        number = meant(content, CONTENTS, asked)
        if number is None or int(offset) + int(size) > len(made) or number >> 8 * int(size):
            fail(f"Image files: there is no {content!r} in {size} bytes at {offset}")
        made[int(offset) : int(offset) + int(size)] = number.to_bytes(int(size), "little")
    return bytes(made) + code


def compare_one(program, asked):
    """The stream that `pack` writes of a module, and the image that `load --out` writes of it."""
    pages = {formats.PAGE: "small", formats.LARGE_PAGE: "large"}[asked.size]
    code = formats.code_of(*[NOP] * (asked.count - 1), 0xD65F03C0)
    words = ["--module", str(asked.module), "--entry", str(asked.entry), "--profile", str(asked.profile), "--pages", pages]
    with tempfile.TemporaryDirectory() as folder:
        room = pathlib.Path(folder)
        (room / "a.code").write_bytes(code)
        packed = subprocess.run([program, "pack", *words, "a.code"], cwd=room, capture_output=True, check=True, timeout=60).stdout
        (room / "a.stream").write_bytes(packed)
        subprocess.run([program, "load", "--out", ".", "a.stream"], cwd=room, capture_output=True, check=True, timeout=60)
        written = (room / f"module-{asked.module:02}.img").read_bytes()
    for heading, wanted, found in ("Streams", stream_of(code, asked), packed), ("Image files", image_of(code, asked), written):
        if wanted != found:
            place = next((at for at, (one, other) in enumerate(zip(wanted, found)) if one != other), min(len(wanted), len(found)))
            fail(f"{heading}: of {asked} byte {place} is another one in what the program writes")


def compare(program):
    for profile, size in (1, formats.PAGE), (2, formats.PAGE), (2, formats.LARGE_PAGE):
        for count, entry in (2, 1), (size // 4 + 6, 5):
            compare_one(program, Asked(profile, size, count, entry))
