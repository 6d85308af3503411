"""The part of checks/hostile on how work grows with what a command is given: eight times as much may take some eight times as long."""

import itertools
import os
import pathlib
import subprocess
import tempfile

from lib import formats, steps
from lib.cases import NOP, PRINTS, RET, wrong
from lib.formats import code_of, image, stream

STRAY = formats.header(formats.CLOSE, 0, 5, 0, 0)
OPEN = formats.messages(0, RET)[0]
# movz w1, #2, lsl #16; str x0, [x21, w1, uxtw]; add w1, w1, #16, lsl #12; b .-8
STORES = code_of(0x52A00041, 0xF8214AA0, 0x11404021, 0x17FFFFFE)
# sub sp, sp, #16; nop; nop; ldr xzr, [sp]
LATE = code_of(0xD10043FF, 0xD503201F, 0xD503201F, 0xF94003FF)


def modules(words, first=NOP):
    """A stream of all modules of so many words each."""
    return b"".join(stream(module, first + NOP * (words - 1)) for module in range(formats.MODULES))


# Words, with the file and the size; a function from a size to the file's bytes; the most size that is tried, as a rule what a command takes at most;
# and how often it is carried out.
CASES = (
    (["check", *["FILE"] * 30], lambda size: NOP * size, 4_194_304, 1),
    (["check", "--profile", "2", *["FILE"] * 16], lambda size: LATE * (size // 4), 4_194_304, 1),
    (["check", "--explain", *["FILE"] * 20], lambda size: NOP * size, 4_194_304, 1),
    (["check", "--explain", *["FILE"] * 20], lambda size: NOP * (size - 1) + bytes(4), 4_194_304, 1),
    (["check", "--format", "json", *["FILE"] * 20], lambda size: bytes(4) + NOP * (size - 1), 4_194_304, 1),
    (["check", "--all", "FILE"], lambda size: (bytes(4) + NOP) * size, 2_097_152, 1),
    (["check", "--all", "--profile", "2", "FILE"], lambda size: (LATE[:12] + RET) * size, 1_048_576, 1),
    (["check", "--all", "--format", "json", "FILE"], lambda size: (NOP + bytes(4)) * size, 2_097_152, 1),
    (["disassemble", "FILE"], lambda size: NOP * size, 4_194_304, 1),
    (["disassemble", "--check", "FILE"], lambda size: (NOP + bytes(4)) * size, 2_097_152, 1),
    (["info", "FILE"], lambda size: OPEN + STRAY * size, 10_000_000, 1),
    (["info", "FILE"], lambda size: modules(size), 4_194_304, 1),
    (["info", "FILE"], lambda size: stream(3, NOP * size, 2, True), 4_194_304, 1),
    (["load", "FILE"], lambda size: stream(3, NOP * size, 2, True), 4_194_304, 4),
    (["pack", "--profile", "2", "--pages", "large", *["FILE"] * 16], lambda size: NOP * size, 4_194_304, 1),
    (["info", *["FILE"] * 20], lambda size: image(3, 0, NOP * size), 4_194_304, 1),
    (["load", "FILE"], lambda size: STRAY * size, 20_000_000, 1),
    (["load", "--format", "json", "--explain", "FILE"], lambda size: modules(size), 4_194_304, 1),
    (["load", "--explain", "FILE"], lambda size: modules(size, bytes(4)), 4_194_304, 1),
    (["load", "--explain", *["FILE"] * 8], lambda size: modules(size // 16), 4_194_304, 1),
    (["load", "--out", ".", "FILE"], lambda size: stream(3, NOP * size), 4_194_304, 10),
    (["pack", *["FILE"] * 16], lambda size: NOP * size, 4_194_304, 1),
    (["unpack", "FILE"], lambda size: image(3, 0, NOP * size), 4_194_304, 20),
    (["run", "FILE", "--steps", "0"], lambda size: image(3, 0, NOP * size), 4_194_304, 20),
    (["run", "FILE", "--steps", "SIZE"], lambda size: image(3, 0, NOP * size), 4_194_304, 4),
    (["run", "FILE", "--steps", "SIZE"], lambda size: image(0, 0, PRINTS), 9_000_000, 1),
    (["run", "FILE", "--steps", "SIZE"], lambda size: image(0, 0, STORES), 196_000, 1),
    (["run", "FILE", "--steps", "SIZE"], lambda size: image(0, 0, NOP * 3 + code_of(0x17FFFFFD)), 1_000_000_000, 1),
)
# The same of so many files.
FILES, MOST_FILES = (["check"], ["info"], ["check", "--format", "json"]), 150_000
# How many times as many seconds the most may take as an eighth of it; more where all of a file is kept, since memory that is new and no cache
# holds is slower.
PART, MOST, MOST_KEPT = 8, 16, 40


def seconds_of(folder, words, times):
    """How many seconds of a processor so many runs take, and the status of the last."""
    seconds = 0
    for _ in range(times):
        running = subprocess.Popen(words, cwd=folder, stdin=subprocess.DEVNULL, stdout=subprocess.DEVNULL, stderr=subprocess.DEVNULL)
        _, status, used = os.wait4(running.pid, 0)
        running.returncode = os.waitstatus_to_exitcode(status)
        seconds += used.ru_utime + used.ru_stime
    return seconds, running.returncode


def is_kept(words):
    """Whether a command of these keeps all of a file, of which it has several."""
    return words.count("FILE") > 1 and (words[0] == "info" or words[0] == "check" and bool({"--explain", "json"} & set(words)))


def compare(program, folder, what, few, many, times=1, limit=MOST):
    """The second command has eight times as much as the first. Other work beside may make one slow: then both are carried out again."""
    for _ in range(4):
        (less, first), (more, second) = (seconds_of(folder, [program, *words], times) for words in (few, many))
        if first != second or first not in (0, 1):
            wrong("growth", what, (first, second), "the same status, 0 or 1")
        if more <= limit * max(less, 0.01):
            return less, more
    wrong("growth", what, f"{more:.2f} seconds of a processor for {PART} times of what takes {less:.3f}", f"at most {limit} times as many")


# Code that is checked by both profiles: a file of the most words eight times, and each of its 64 parts as often. The file may take so many times as long.
# Loads of x30 with what follows them, a move of sp with a probe, a pair, branches to the next word, one through a register, and a load by one.
WHOLE_AND_PARTS = (
    steps.MIXED, code_of(0xF94007FE, 0x8B3E42BE), code_of(0xF94006BE, 0xD63F03C0), code_of(0xA8C17BFD, 0x8B3E42BE), code_of(0xD10043FF, 0xF94003FF),
    code_of(0xA9400A40), code_of(0x14000001, 0xD503201F), code_of(0xB4000020, 0xD503201F), code_of(0xD61F0240), code_of(0xF8614AA2),
)
PARTS, TIMES, MOST_WHOLE = 64, 8, 2.5


def compare_parts(program, folder, code, words):
    """Words far from the beginning take as much work as those near it."""
    size = formats.MOST_WORDS * 4 // PARTS
    for number in range(PARTS):
        pathlib.Path(folder, f"{number}.code").write_bytes(code * (size // len(code)))
    pathlib.Path(folder, "whole.code").write_bytes(code * (PARTS * size // len(code)))
    for _ in range(4):
        whole, first = seconds_of(folder, [program, *words, *["whole.code"] * TIMES], 1)
        parts, second = seconds_of(folder, [program, *words, *(f"{number}.code" for number in range(PARTS) for _ in range(TIMES))], 1)
        if first or second:
            wrong("growth", f"{' '.join(words)} of {code.hex()}", (first, second), "status 0")
        if whole <= MOST_WHOLE * parts:
            return parts, whole
    wrong("growth", f"{' '.join(words)} of {code.hex()}", f"{whole:.2f} seconds of a processor for a file whose {PARTS} parts take {parts:.2f}", f"at most {MOST_WHOLE} times as many")


def try_growth(program):
    """Each command on the most that it takes, or on much, and on an eighth of it."""
    seen = []
    for code, words in itertools.product(WHOLE_AND_PARTS, (["check"], ["check", "--profile", "2"])):
        with tempfile.TemporaryDirectory() as folder:
            seen.append((f"parts of {code[:4].hex()}", *compare_parts(program, folder, code, words)))
    for words, made, most, times in CASES:
        with tempfile.TemporaryDirectory() as folder:
            both = {"few": most // PART, "many": most}
            for name, size in both.items():
                pathlib.Path(folder, name).write_bytes(made(size))
            few, many = ([{"FILE": name, "SIZE": str(size)}.get(word, word) for word in words] for name, size in both.items())
            what = " ".join(dict.fromkeys(words))
            seen.append((what, *compare(program, folder, f"{what}, {most}", few, many, times, MOST_KEPT if is_kept(words) else MOST)))
    for words in FILES:
        with tempfile.TemporaryDirectory() as folder:
            pathlib.Path(folder, "a").write_bytes(RET)
            few, many = ([*words, *"a" * count] for count in (MOST_FILES // PART, MOST_FILES))
            seen.append((" ".join(words), *compare(program, folder, f"{' '.join(words)} of {MOST_FILES} files", few, many)))
    print("growth: seconds of a processor: " + ", ".join(f"{what} {less:.2f} and {more:.2f}" for what, less, more in seen))
