"""What a file is told to be by its first four bytes, of which each bit counts: for checks/program."""

import itertools
import pathlib
import subprocess
import sys
import tempfile

from lib import told


def heads():
    """The first four bytes of an ELF file and of an image, and these with one bit turned; and of streams, as docs/PROFILE.md, "Streams", has an
    Open, with those beside them."""
    for magic in (b"\x7fELF", b"LFI1"):
        yield magic
        yield from ((int.from_bytes(magic, "little") ^ 1 << bit).to_bytes(4, "little") for bit in range(32))
    for kind, second, module, high in itertools.product(range(6), range(4), (0, 1, 15, 16, 255), (0, 1, 128)):
        yield bytes((kind, second, module, high))


def compare(program):
    """Has a file of each head listed, and answers how many there were."""
    count = 0
    with tempfile.TemporaryDirectory() as folder:
        for head in heads():
            pathlib.Path(folder, "file").write_bytes(head)
            done = subprocess.run([program, "disassemble", "file"], cwd=folder, capture_output=True, text=True, timeout=60)
            kind, count = told.kind_of(head), count + 1
            if done.returncode or done.stderr != (f"lfiload: file: {told.HINTS[kind]}\n" if kind else ""):
                sys.exit(f"program: a file that begins with {head.hex(' ')}: {done}, and not one that is told as {kind}")
    return count
