"""The groups of words that are no instructions of the profile, by the Arm manual's tables of C4.1, beside what the program tells: for checks/program."""

import pathlib
import random
import re
import subprocess
import sys
import tempfile

from lib import formats

# Bits 31 to 21 of a word, and its bits 11 and 10: the first row that fits has its group. By bits 31 and 28 to 25, of branches by bits 31 to
# 24, of loads and stores by bits 29 to 26, 24, 21, 11 and 10.
# COMMANDS: Groups are the Arm manual's.
GROUPS = (
    ("0..0000....", "..", "reserved words"),
    ("1..0000....", "..", "SME"),
    ("...0001....", "..", "unallocated words"),
    ("...0010....", "..", "SVE"),
    ("...0011....", "..", "unallocated words"),
    ("...100.....", "..", "data processing with an immediate"),
    ("11010100...", "..", "exception generation"),
    ("11010101...", "..", "system instructions, barriers and hints"),
    ("...101.....", "..", "branches"),
    ("..001000...", "..", "exclusive and ordered accesses, compare and swap"),
    ("..111000..1", "00", "atomic memory operations"),
    ("....100....", "..", "loads and stores"),
    ("....110....", "..", "loads and stores of floating point and SIMD registers"),
    ("....101....", "..", "data processing with registers"),
    ("....111....", "..", "floating point and SIMD"),
)
COUNT, SEED = 20_000, 4


def group_of(word):
    bits = f"{word:032b}"
    return next(group for high, low, group in GROUPS if re.fullmatch(high, bits[:11]) and re.fullmatch(low, bits[20:22]))


def compare(program):
    """Has drawn words explained. Returns of how many the group was compared."""
    source = random.Random(SEED)
    words = [source.getrandbits(32) for _ in range(COUNT)]
    with tempfile.TemporaryDirectory() as folder:
        pathlib.Path(folder, "drawn.code").write_bytes(formats.code_of(*words))
        told = subprocess.run([program, "check", "--all", "drawn.code"], cwd=folder, capture_output=True, text=True, timeout=60).stdout
    found = re.findall(r"^word (\d+) rule 1\n.*\n.*, of the group: (.*)$", told, re.M)
    for place, group in found:
        if group != group_of(words[int(place)]):
            sys.exit(f"program: {words[int(place)]:08x} is told as one of {group}, and not of {group_of(words[int(place)])}")
    if {group for _, group in found} != {group for *_, group in GROUPS}:
        sys.exit(f"program: of {COUNT} drawn words none is told as one of {sorted({group for *_, group in GROUPS} - {group for _, group in found})}")
    return len(found)
