"""What the parts of checks/hostile share: words, kinds of modules, and how they tell what is otherwise."""

import os
import subprocess
import sys

from lib import formats

# The last is a branch to itself.
NOP, RET, LOOP = bytes.fromhex("1f2003d5"), bytes.fromhex("c0035fd6"), bytes.fromhex("00000014")
# ldr x30, [x21, #8]; blr x30, which writes the low byte of x0; b to the first of them.
PRINTS = bytes.fromhex("be0640f9 c0033fd6 feffff17")
# Code of the most words.
WHOLE = NOP * formats.MOST_WORDS
OPENS = ((1, False), (2, False), (2, True))  # the profile of each kind of Open, and whether its pages are large


def progress(part, tried):
    """Tells somebody who looks on how far a part is."""
    if sys.stderr.isatty():
        print(f"\r{part}: {tried} ", end="", file=sys.stderr, flush=True)


def wrong(part, what, came, wanted):
    sys.exit(f"hostile: {part}: {what}: {came!r}, and not {wanted!r}")


def run(program, folder, words, **more):
    more = {"stdout": subprocess.PIPE, "stderr": subprocess.PIPE, **more}
    return subprocess.run([program, *words], cwd=folder, stdin=subprocess.DEVNULL, text=True, errors="replace", timeout=60, **more)


def without(descriptors):
    """Closes these descriptors in the process that is to be started."""

    def close():
        for descriptor in descriptors:
            os.close(descriptor)

    return close


def on_one_core():
    """Before a process begins: all its threads share one core."""
    os.sched_setaffinity(0, {min(os.sched_getaffinity(0))})
