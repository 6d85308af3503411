"""How many instructions a program executes in all its threads, and how often it calls the system: a measure of work that is nearly alike on every
machine, and no time."""

import itertools
import os
import pathlib
import subprocess
import threading

from lib import formats

# x18 guarded, a load and a store through it, a number, a comparison, two branches to the next word, and a return.
MIXED = formats.code_of(0x8B2142B2, 0xF9400240, 0xF9000240, 0xD2800900, 0xF101201F, 0x54000020, 0x14000001, 0xD65F03C0)
SOURCE = pathlib.Path(__file__).resolve().parent / "steps.c"
UNTRACED = 125
# glibc copies and sets bytes by what the processor has: long pieces by one instruction, of which each byte is a step, and others by 64 bytes, or 32. Here it
# goes by what each processor has.
LEFT_OUT = ",".join(f"-{name}" for name in ("AVX", "AVX2", "AVX512F", "AVX512VL", "AVX_Fast_Unaligned_Load", "ERMS", "FSRM"))
TUNABLES = ":".join((*(f"glibc.cpu.x86_rep_{name}_threshold={1 << 30}" for name in ("movsb", "stosb")), f"glibc.cpu.hwcaps={LEFT_OUT}"))


def build(folder):
    """Builds what counts, in a folder."""
    subprocess.run(["cc", "-O2", "-o", "steps", SOURCE], cwd=folder, check=True)


def parts_of(folder, words, read=subprocess.DEVNULL):
    """The status of a run in the folder that reads this; how many instructions it executed, or `None` where the system lets nobody trace here; how many
    of these before each write to its output, since the one before; and its output. A run that takes a quarter of an hour has no status."""
    told, output = (pathlib.Path(folder, f"{name}-{threading.get_ident()}") for name in ("steps", "output"))
    with open(output, "wb") as file:
        given = {"cwd": folder, "env": {**os.environ, "GLIBC_TUNABLES": TUNABLES}, "stdin": read, "stdout": file, "stderr": subprocess.PIPE}
        try:
            done = subprocess.run([os.path.join(folder, "steps"), "instructions", told, *words], timeout=900, **given)
        except subprocess.TimeoutExpired:
            return "no end", 0, [], b""
    if done.returncode == UNTRACED:
        return done.returncode, None, [], b""
    steps, *grown = map(int, told.read_text().split())
    return done.returncode, steps, [after - before for before, after in itertools.pairwise([0, *grown])], output.read_bytes()


def steps_of(folder, words):
    """The status of a run, and its instructions, as `parts_of` has them."""
    return parts_of(folder, words)[:2]


def calls_of(folder, words, read=subprocess.DEVNULL):
    """The status of a run in the folder that reads this, and how many system calls it asks for, or `None` where the system lets nobody trace here. A run
    that takes five minutes has no status."""
    told, more = pathlib.Path(folder, f"calls-{threading.get_ident()}"), {"stdout": subprocess.DEVNULL, "stderr": subprocess.DEVNULL, "timeout": 300}
    try:
        done = subprocess.run([os.path.join(folder, "steps"), "calls", told, *words], cwd=folder, stdin=read, **more)
    except subprocess.TimeoutExpired:
        return "no end", 0
    return done.returncode, None if done.returncode == UNTRACED else int(told.read_text())
