"""The numbers that `--help` tells, beside what the program does: for checks/program."""

import pathlib
import re
import struct
import subprocess
import sys
import tempfile

from lib import formats, tree

RET, SVC = (formats.code_of(word) for word in (0xD65F03C0, 0xD4000001))
# What `run` tells of a fault of images, as a pattern, and a file of it; None: a folder.
IMAGES = {
    "it doesn't begin with LFI1": b"LFI2" + formats.image(0, 0, RET)[4:],
    "its profile": formats.image(0, 0, RET, 3),
    "its counts": formats.image(0, 1, RET),
    "its base": struct.pack("<4sIIIQ", b"LFI1", 1, 0, 1, 2 << 32) + RET,
    "it is cut": formats.image(0, 0, RET)[:-1],
    "bytes follow it": formats.image(0, 0, RET) + b"\0",
    "no memory": b"",
    "a read failed": None,
}


def fail(command, why):
    sys.exit(f"program: lfiload {command} --help: {why}")


def flat(text):
    return " ".join(text.split())


def told_of(program, content, *words):
    """What the program writes of a file with these bytes, on both of its outputs; None: of a folder."""
    with tempfile.TemporaryDirectory() as folder:
        file = pathlib.Path(folder, "file")
        file.mkdir() if content is None else file.write_bytes(content)
        done = subprocess.run([program, *words, "file"], cwd=folder, stdin=subprocess.DEVNULL, capture_output=True, timeout=60)
    return done.stdout + done.stderr


# COMMANDS: [PROFILE.md](PROFILE.md) has the rules, and the faults of streams and image files.
def number_in_profile(row, column):
    """The number of a fault in the table of docs/PROFILE.md, whose second column is of streams and whose fourth of images."""
    rows = [line.strip("| ").split(" | ") for line in (tree.TOP / "docs" / "PROFILE.md").read_text().splitlines()]
    return next((it[0] for it in rows if it[column : column + 1] == [row]), None)


# HELP: connection C: fault F Its stream has fault F: 1 to 7 a header, 8 no memory, 9 its end, 10 a read that failed.
def compare_stream_faults(program, helps):
    """Of load: the last fault of a header, a stream that ends too early, a read that fails. No memory is refused by checks/refused_growth."""
    told = re.search(r"Its stream has fault F: 1 to (\d+) a header, (\d+) no memory, (\d+) its end, (\d+) a read that failed\.", flat(helps["load"]))
    entry = formats.header(1, 0, 0, 1, 1)  # entered past its last word
    found = [re.search(rb"connection 0: fault (\d+)", told_of(program, it, "load")) for it in (entry, formats.stream(0, RET)[:-1], None)]
    last, early, failed = (it and it[1].decode() for it in found)
    wanted = (last, number_in_profile("NoMemory", 1), early, failed)
    if not told or told.groups() != wanted:
        fail("load", f"it tells the faults {told and told.groups()} of streams, and not {wanted}")


# HELP: image refused, fault F There is no image: 1 it doesn't begin with LFI1, 2 its profile, 3 its counts, 4 its base, 5 it is cut, 6
#   bytes follow it (status 1), 8 no memory, 9 a read failed (status 3).
def compare_image_faults(program, helps):
    """Of run: each fault of an image by a file of it. Of unlawful code, too."""
    told = flat(helps["run"]).partition("There is no image: ")[2].partition(" (status 3).")[0]
    faults = {text: number for number, text in re.findall(r"\b(\d) (.*?)(?:, | \(status 1\), |$)", told)}
    if faults.keys() != IMAGES.keys():
        fail("run", f"it tells of faults of images that {sorted(faults.keys() ^ IMAGES.keys())}")
    found = {text: re.match(rb"image refused, fault (\d)\n", told_of(program, it, "run", "--steps", "1")) for text, it in IMAGES.items()}
    numbers = {text: it and it[1].decode() for text, it in found.items()} | {"no memory": number_in_profile("NoMemory", 3)}
    if faults != numbers:
        fail("run", f"it tells the faults {faults} of images, and they have {numbers}")
    if not told_of(program, formats.image(0, 0, SVC), "run", "--steps", "1").startswith(b"image refused, fault 7, word 0 rule 1\n"):
        fail("run", "a word that breaks a rule isn't fault 7")


def compare_longest(helps):
    """Of info: the bytes of a stream of all modules of the most words. The rows of info.runs have a file of them, and a longer one."""
    most = formats.MODULES * sum(map(len, formats.messages(0, bytes(4 * formats.MOST_WORDS))))
    if re.findall(r"more than (\d+) bytes", helps["info"]) != [str(most)]:
        fail("info", f"the longest stream has {most} bytes")


# HELP: Calls of the runtime: entry 0 ends the run with the low byte of x0 as its status; entry 1 writes the low byte of x0 to the standard
#   output, at once; every other sets all bits of x0.
def start_of(program):
    """The number that each register begins with in slot 3, printed by code that runs there; 31 is sp."""
    found = {}
    for number in range(32):
        # orr x19, xzr, xN, or add x19, sp, #0; then eight times lsr x0, x19, #8j; ldr x30, [x21, #8]; blr x30
        words = [0x910003F3 if number == 31 else 0xAA0003F3 | number << 16]
        for j in range(8):
            words += 0xD340FE60 | 8 * j << 16, 0xF94006BE, 0xD63F03C0
        found[number] = int.from_bytes(told_of(program, formats.image(3, 0, formats.code_of(*words)), "run", "--steps", "25")[:8], "little")
    return found


def start_with(bases):
    """What the registers begin with where these hold the base, sp the end, and all others 0."""
    base = formats.base(3)
    return {number: base if number in bases else base + (1 << 32) if number == 31 else 0 for number in range(32)}


# HELP: The code starts at its entry with the base of its slot in x18, x21, x23, x24 and x30, the end of its slot in sp, and 0 in all other
#   registers.
def compare_start(program, helps):
    """Of run: which registers hold the base at the start, which the end, and that all others are 0."""
    said = re.search(r"with the base of its slot in (.*?), the end of its slot in sp, and 0 in all other registers", flat(helps["run"]))
    bases = {int(it) for it in re.findall(r"\bx(\d+)", said[1])} if said else set()
    found = start_of(program)
    if found != start_with(bases):
        fail("run", f"the registers begin as {found}, and by it as {start_with(bases)}")


def compare(program, helps):
    compare_stream_faults(program, helps)
    compare_image_faults(program, helps)
    compare_longest(helps)
    compare_start(program, helps)
