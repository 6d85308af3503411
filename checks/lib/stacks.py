"""Where assembly by hand moves sp: for checks/program. Where an access goes through sp, a processor asks that this is a multiple of 16 (Arm DDI 0487,
D1.3.10.2, SP alignment checking), and qemu-user doesn't."""

import re
import sys

from lib import tree

FILES = ("native_host/entry.S", "guard/start.s", "checksums.s")
MOVES = re.compile(r"\bsp, sp, #(\d+)|\[sp, #(-?\d+)\]!|\[sp\], #(-?\d+)")


def compare():
    """Each move of sp by a number is one by a multiple of 16. Answers how many there are."""
    moves = [(name, int(next(filter(None, it)))) for name in FILES for it in MOVES.findall((tree.EXAMPLES / name).read_text(encoding="utf-8"))]
    if wrong := [it for it in moves if it[1] % 16] or {name for name, _ in moves} != set(FILES):
        sys.exit(f"program: sp is moved by no multiple of 16: {wrong}, of {moves}")
    return len(moves)
