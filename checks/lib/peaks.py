"""The part of checks/hostile on how much memory a command takes at most."""

import os
import pathlib
import re
import shutil
import subprocess
import tempfile

from lib import formats
from lib.cases import LOOP, NOP, RET, WHOLE, wrong
from lib.formats import code_of, image
from lib.serving import connected

SOURCE = pathlib.Path(__file__).resolve().parent / "peak.c"
# add w0, w0, #16, lsl #12; add sp, x21, w0, uxtw; b .-8: each third step moves sp by 64 KiB, and nothing is stored.
MOVES_SP = code_of(0x11404000, 0x8B2042BF, 0x17FFFFFE)
# movz w2, #256, lsl #16; add w1, w1, w2; str x2, [x21, w1, uxtw]; b .-8
STORES_FAR = code_of(0x52A02002, 0x0B020021, 0xF8214AA2, 0x17FFFFFE)
REFUSED, PARTS = bytes(4) + NOP * 2_097_151, [f"part-{number}.code" for number in range(50)]
KEPT = ("long.code", "odd.code")
STREAMS, SIZES = [f"{module}.stream" for module in range(8)], (1 << 20, 3_000_000, 5_000_000, (1 << 23) - 4, 12_000_000)


def write_files(folder):
    """The files of the commands below."""
    for module, name in enumerate(STREAMS):
        pathlib.Path(folder, name).write_bytes(formats.stream(module, REFUSED))
        pathlib.Path(folder, f"behind-{name}").write_bytes(formats.header(formats.CLOSE, 0, 15, 0, 0) + formats.stream(module, REFUSED))
        pathlib.Path(folder, f"large-{name}").write_bytes(formats.stream(module, REFUSED, 2, True))
    # The length of these modulo 2^32 is that of one word; the second takes no room on the disk.
    for name, begin in ("huge.code", WHOLE[:4_096]), ("hollow.code", b""):
        with open(os.path.join(folder, name), "wb") as huge:
            huge.write(begin)
            huge.truncate((1 << 32) + 4)
    with open(os.path.join(folder, "holes.code"), "wb") as holes:
        holes.write(WHOLE[:4_096])
        holes.truncate(1 << 24)
    for name, content in (
        ("long.code", WHOLE), ("odd.code", WHOLE[4:]), ("long.img", image(5, 0, WHOLE)), ("late.img", image(5, formats.MOST_WORDS - 1_000, WHOLE)), ("long.stream", formats.stream(5, WHOLE)), ("small.stream", formats.stream(5, RET)),
        ("refused.code", bytes(1 << 18)), *((f"{size}.code", WHOLE[:size]) for size in SIZES), *((name, bytes(1 << 16)) for name in PARTS),
        ("loop.img", image(0, 0, LOOP)), ("moves.img", image(0, 0, MOVES_SP)), ("far.img", image(0, 0, STORES_FAR)),
    ):
        pathlib.Path(folder, name).write_bytes(content)


TOO_LONG = "  more than 16777216 bytes; code has a multiple of 4, from 4 to 16777216"
LINES = "".join(f"module {module}: refused, word 0 rule 1\n" for module in range(8)) + "strays 0\n"
NOTICES = [f"module {module} refused" for module in range(8)]
ONE, EIGHT = (["load", "--verifiers", count] for count in ("1", "8"))
# What it is, the most kB of memory that is touched, its output, the lines of its errors and its status; and words. No output is kept of
# those that have none here.
TOUCHED = (
    ("eight refused modules", 17_000, (LINES, NOTICES, 1), *ONE, *STREAMS),
    ("the same behind an unmatched message each", 17_000, (LINES.replace("strays 0", "strays 8"), NOTICES, 1), *ONE, *(f"behind-{name}" for name in STREAMS)),
    ("the same in large pages", 40_000, (LINES, NOTICES, 1), *ONE, *(f"large-{name}" for name in STREAMS)),
    ("the modules by eight verifiers", 32_000, (LINES, NOTICES, 1), *EIGHT, *STREAMS),
    ("the same in large pages", 64_000, (LINES, NOTICES, 1), *EIGHT, *(f"large-{name}" for name in STREAMS)),
    ("a check of 16 MiB", 6_000, ("lawful, 4194304 words\n", [], 0), "check", "long.code"),
    ("one of a word less", 6_000, ("lawful, 4194303 words\n", [], 0), "check", "odd.code"),
    *((f"one of {size} bytes", 6_000, (f"lawful, {size // 4} words\n", [], 0), "check", f"{size}.code") for size in SIZES),
    ("one by profile 2", 6_000, ("lawful, 4194304 words\n", [], 0), "check", "--profile", "2", "long.code"),
    ("one of both", 6_000, ("long.code: lawful, 4194304 words\nodd.code: lawful, 4194303 words\n", [], 0), "check", "long.code", "odd.code"),
    ("four checks that keep the code", 48_000, ("".join(f"{name}: lawful, {4_194_304 - n} words\n" for n, name in enumerate(KEPT)) * 2, [], 0), "check", "--explain", *KEPT * 2),
    ("four listed images", 48_000, (None, [], 0), "info", *["long.img"] * 4),
    ("four modules packed", 90_000, (None, [], 0), "pack", *KEPT * 2),
    ("a check of a file with holes", 6_000, ("word 1024 rule 1\n", [], 1), "check", "holes.code"),
    *((f"a check of 4 GiB, {name}", 24_000, ("bad length\n", [TOO_LONG, f"lfiload: bad length {name}"], 1), "check", name) for name in ("huge.code", "hollow.code")),
    ("a file without an end", 300_000, ("too long, more than 269222272 bytes\n", [], 1), "info", "/dev/zero"),
    ("explanations of 65,536 words", 6_000, (None, [], 1), "check", "--all", "refused.code"),
    ("objects of 50 files of 16,384 such words", 16_000, (None, [], 1), "check", "--all", "--format", "json", *PARTS),
    ("a listing of 16 MiB", 24_000, (None, [], 0), "disassemble", "long.code"),
    ("a run that moves sp", 6_000, ("", ["halt 1 after 60000 steps"], 0), "run", "moves.img", "--steps", "60000"),
    ("a run that stores in each 16 MiB", 36_000, ("", ["halt 1 after 750 steps"], 0), "run", "far.img", "--steps", "750"),
    ("a run of the first 131,072 words", 40_000, ("", ["halt 1 after 131072 steps"], 0), "run", "long.img", "--steps", "131072"),
    ("a run that begins at the last ones", 120_000, ("", ["halt 1 after 900 steps"], 0), "run", "late.img", "--steps", "900"),
    ("a load of 16 MiB", 25_000, ("module 5: complete, 4194304 words\nstrays 0\n", [], 0), "load", "long.stream"),
    ("one that writes its image", 25_000, ("module 5: complete, 4194304 words\nstrays 0\n", [], 0), "load", "--out", ".", "long.stream"),
)
# The same of the most kB of addresses.
ADDRESSES = (
    ("the addresses of a run", 10_000, ("", ["halt 1 after 2000000 steps"], 0), "run", "loop.img", "--steps", "2000000"),
    *((f"those of {words[0]}", 10_000, wanted, *words) for wanted, *words in (
        ((None, [], 1), "check", "--all", PARTS[0]), ((None, [], 1), "check", "--explain", "--format", "json", PARTS[0]),
        ((None, [], 0), "disassemble", "--check", PARTS[0]), ((None, [], 0), "info", PARTS[0]), ((None, [], 0), "pack", PARTS[0]), ((None, [], 0), "unpack", "loop.img"),
    )),
    ("those of a load of a small module", 700_000, ("module 5: complete, 1 words\nstrays 0\n", [], 0), "load", "small.stream"),
)


def peak_of(folder, key):
    """The most memory of the last run in the folder, in kB: VmHWM, what it touched, or VmPeak, its addresses; 0 where nothing tells that."""
    peak = pathlib.Path(folder, "peak")
    return int(re.search(rf"^{key}:\s*(\d+)", peak.read_text(), re.M)[1]) if peak.exists() else 0


def told_of(program, folder, words, keeps):
    """What a run comes to: its output, the lines of its errors, its status."""
    pathlib.Path(folder, "peak").unlink(missing_ok=True)
    given = {"stdin": subprocess.DEVNULL, "stdout": subprocess.PIPE if keeps else subprocess.DEVNULL, "stderr": subprocess.PIPE}
    done = subprocess.run([program, *words], text=True, errors="replace", cwd=folder, env=loaded(folder), timeout=60, **given)
    return done.stdout, sorted(done.stderr.splitlines()), done.returncode


def loaded(folder):
    """The environment of a run whose memory is told."""
    return {**os.environ, "LD_PRELOAD": os.path.join(folder, "peak.so"), "PEAK": os.path.join(folder, "peak")}


def told_of_serve(program, folder, names):
    """What `serve` comes to whose clients send these files."""
    pathlib.Path(folder, "peak").unlink(missing_ok=True)
    words = [program, "serve", "--socket", "s", "--connections", str(len(names)), "--verifiers", "1"]
    serve = subprocess.Popen(words, stdout=subprocess.PIPE, stderr=subprocess.PIPE, text=True, cwd=folder, env=loaded(folder))
    senders = []
    for name in names:
        with connected(os.path.join(folder, "s")) as client, open(os.path.join(folder, name), "rb") as file:
            senders.append(subprocess.Popen(["cat"], stdin=file, stdout=client.fileno(), stderr=subprocess.DEVNULL))
    told, lines = serve.communicate(timeout=60)
    for sender in senders:
        sender.wait(timeout=60)
    return told, sorted(lines.splitlines()), serve.returncode


# What it is, the most kB of memory, what it comes to as above, and the files of its clients.
SERVED = (
    ("eight refused modules of clients", 17_000, (LINES, NOTICES, 1), STREAMS),
    ("16 MiB of a client", 25_000, ("module 5: complete, 4194304 words\nstrays 0\n", [], 0), ["long.stream"]),
)


# COMMANDS: `check` reads a file in pieces; with `--explain`, `--all` or `--format json` it keeps the code. `load` and `serve` read a
#   piece at a time.
def try_memory(program):
    """Each of these commands, with the most memory that it may take."""
    if not shutil.which("cc"):
        print("memory: left out, since cc isn't here")
        return
    with tempfile.TemporaryDirectory() as folder:
        subprocess.run(["cc", "-O2", "-shared", "-fPIC", "-o", "peak.so", SOURCE], cwd=folder, check=True)
        write_files(folder)
        runs = [(what, most, "VmHWM", wanted, lambda words=words, wanted=wanted: told_of(program, folder, words, wanted[0] is not None)) for what, most, wanted, *words in TOUCHED]
        runs += [(what, most, "VmPeak", wanted, lambda words=words, wanted=wanted: told_of(program, folder, words, wanted[0] is not None)) for what, most, wanted, *words in ADDRESSES]
        runs += [(what, most, "VmHWM", wanted, lambda names=names: told_of_serve(program, folder, names)) for what, most, wanted, names in SERVED]
        seen = []
        for what, most, key, wanted, carry_out in runs:
            came, took = carry_out(), peak_of(folder, key)
            if came != wanted or not 0 < took <= most:
                wrong("memory", what, (took, came), f"at most {most} kB, and {wanted!r}")
            seen.append(f"{what} {took} kB")
    print("memory: " + ", ".join(seen))
