"""The parts of checks/hostile on what the program reads: inputs of all kinds, and code of the most words."""

import fcntl
import itertools
import json
import os
import pathlib
import resource
import select
import subprocess
import tempfile
import threading
import time

from lib import formats
from lib.cases import NOP, OPENS, RET, run, without, wrong
from lib.formats import LARGE_PAGE, MOST_WORDS, PAGE, image


def waiting_pipe(content):
    """The reading end of a pipe with some bytes, which doesn't wait for more, and the writing end."""
    reader, writer = os.pipe()
    os.set_blocking(reader, False)
    os.write(writer, content)
    return reader, writer


def try_inputs(program):
    """A named pipe, the pipe of a shell's `<(..)`, and a standard input that has no more bytes yet, or is closed."""
    with tempfile.TemporaryDirectory() as folder:
        os.mkfifo(os.path.join(folder, "pipe"))
        # A program that never opens the pipe leaves this thread behind, and fails below.
        feeder = threading.Thread(target=lambda: pathlib.Path(folder, "pipe").write_bytes(NOP * 30_000 + RET), daemon=True)
        feeder.start()
        came = run(program, folder, ["check", "pipe"])
        feeder.join(60)
        if (came.returncode, came.stdout) != (0, "lawful, 30001 words\n"):
            wrong("inputs", "a named pipe", came, "lawful")
        came = subprocess.run(["bash", "-c", 'printf "\\300\\003\\137\\326" | "$0" check <(cat)', program], capture_output=True, text=True, timeout=60)
        if (came.returncode, came.stdout) != (0, "lawful, 1 words\n"):
            wrong("inputs", "<(..)", came, "lawful")
        reader, writer = waiting_pipe(RET)
        came = subprocess.run([program, "check", "-"], stdin=reader, capture_output=True, text=True, timeout=60)
        os.close(reader), os.close(writer)
        if (came.returncode, came.stdout, came.stderr[:25]) != (3, "", "lfiload: cannot read -\n"):
            wrong("inputs", "a pipe that has no more yet", came, "cannot read")
    for command in READERS:
        with tempfile.TemporaryDirectory() as folder:
            try_standard_inputs(program, folder, command)
    for command in ("check", "check --format json", "info"):
        try_many_files(program, command)
    terminal = try_terminals(program)
    try_long_stream(program)
    try_lock(program)
    try_growing(program)
    try_endless(program)
    print(
        f"inputs: two pipes read, one that has no more yet told; {len(READERS)} commands read what is left of a file, and tell an input that is closed or a folder; 40 files read one after another; {terminal}; a stream of 4.3 GB; "
        f"{len(ENDLESS)} commands end on a file without an end, and {len(REFUSED_AT_ONCE)} on a refused beginning though more may come"
    )


# COMMANDS: **`-` is the standard input**, wherever a file is read.
READERS = {
    "check": RET, "disassemble": RET, "pack": RET, "info": formats.stream(0, RET), "load": formats.stream(0, RET),
    "run --steps 5": image(0, 0, RET), "unpack": image(0, 0, RET),
}


def try_many_files(program, command):
    """More files than a process may have open at once: they are read one after another."""
    with tempfile.TemporaryDirectory() as folder:
        names = [f"{number}.code" for number in range(40)]
        for name in names:
            pathlib.Path(folder, name).write_bytes(RET)
        done = run(program, folder, [*command.split(), *names], preexec_fn=lambda: resource.setrlimit(resource.RLIMIT_NOFILE, (20, 20)))
    if (done.returncode, done.stderr) != (0, "") or any(name not in done.stdout for name in names):
        wrong("inputs", f"{command} of 40 files with 20 descriptors", done, "status 0, and each file told")


def try_terminals(program):
    try:
        for end in os.openpty():
            os.close(end)
    except OSError:
        return "no terminal, since none is to be had here"
    try_terminal(program)
    try_terminal_output(program)
    return "a terminal, and what is printed to one at once"


def try_terminal(program):
    """A standard input that is a terminal: a line, and its end."""
    ours, theirs = os.openpty()
    os.write(ours, b"abc\n\x04")
    came = subprocess.run([program, "info", "-"], stdin=theirs, capture_output=True, text=True, timeout=60)
    os.close(ours), os.close(theirs)
    if (came.returncode, came.stdout, came.stderr) != (0, "code, 1 words\n", ""):
        wrong("inputs", "a terminal", came, "code, 1 words")


def try_terminal_output(program):
    """A run on a terminal that prints a byte and goes on: the byte is there at once."""
    # mov x0, #65; ldr x30, [x21, #8]; blr x30; b .
    code = bytes.fromhex("200880d2 be0640f9 c0033fd6 00000014")
    ours, theirs = os.openpty()
    with tempfile.TemporaryDirectory() as folder:
        pathlib.Path(folder, "a.img").write_bytes(image(0, 0, code))
        going = subprocess.Popen([program, "run", "a.img", "--steps", "1000000000"], stdout=theirs, stderr=subprocess.PIPE, cwd=folder)
        came = os.read(ours, 1) if select.select([ours], [], [], 60)[0] else b""
        # One that wrote it at its end has ended by then.
        time.sleep(0.5)
        ended = going.poll()
        going.kill()
        going.communicate()
    os.close(ours), os.close(theirs)
    if (came, ended) != (b"A", None):
        wrong("inputs", "a byte printed to a terminal", (came, ended), "there while the run goes on")


def append(path, over):
    """Appends words to a file again and again, but no more than half of what it has."""
    with open(path, "ab", buffering=0) as file:
        for _ in range(15_000):
            if not over.is_set():
                file.write(NOP * 64)


def try_growing(program):
    """Code that grows while it is read: no beginning of it is told lawful. Checks it, until one met that. Its length is none of a disk's
    sectors."""
    with tempfile.TemporaryDirectory() as folder:
        path, told = os.path.join(folder, "a.code"), []
        while len(told) < 100 and 3 not in told:
            pathlib.Path(path).write_bytes(NOP * 2_000_001)
            over = threading.Event()
            writer = threading.Thread(target=append, args=(path, over))
            writer.start()
            done = run(program, folder, ["check", "a.code"])
            over.set()
            writer.join()
            told.append(done.returncode)
    if told[-1] != 3 or set(told) - {0, 3} or done.stderr != "lfiload: cannot read a.code\n":
        wrong("inputs", "a file that grows", (told, done), "cannot read")


def try_lock(program):
    """An input that another process has locked is read."""
    with tempfile.TemporaryDirectory() as folder:
        with open(os.path.join(folder, "a.code"), "wb") as file:
            file.write(RET)
            file.flush()
            fcntl.flock(file, fcntl.LOCK_EX)
            done = run(program, folder, ["check", "a.code"])
    if (done.returncode, done.stdout) != (0, "lawful, 1 words\n"):
        wrong("inputs", "a locked file", done, "lawful")


def try_long_stream(program):
    """A stream of more than 2^32 bytes, by a pipe: pages and Closes that no module takes, a module, and a message that isn't whole."""
    pages = (formats.header(5, 0, 9, 0, LARGE_PAGE) + bytes(LARGE_PAGE)) * 500
    rest = formats.header(formats.CLOSE, 0, 9, 0, 0) * 60_000 + formats.stream(3, RET)
    told = []
    for words in ["--explain"], ["--format", "json"]:
        load = subprocess.Popen([program, "load", *words, "/dev/stdin"], stdin=subprocess.PIPE, stdout=subprocess.PIPE, text=False)
        for _ in range(525):
            load.stdin.write(pages)
        told.append(load.communicate(rest + b"\x01", timeout=60)[0].decode())
    came, by_object = told[0].splitlines(), json.loads(told[1])["connections"][0]
    strays = 525 * 500 + 60_000
    wanted = ["module 3: complete, 1 words", "connection 0: fault 9", f"strays {strays}", "module 3: from connection 0",
              "connection 0: input ended too early", f"  message at byte {525 * len(pages) + len(rest)} of /dev/stdin", f"connection 0: strays {strays}"]
    if came != wanted or 525 * len(pages) <= 1 << 32:
        wrong("inputs", "a long stream", came, wanted)
    if (by_object["byte"], by_object["strays"]) != (525 * len(pages) + len(rest), strays):
        wrong("inputs", "a long stream, as an object", by_object, wanted)


def try_standard_inputs(program, folder, command):
    """A command whose standard input is a file of which four bytes were read: it reads the others, as from a pipe; closed; a folder."""
    words, content = [*command.split(), "-"], READERS[command]
    pathlib.Path(folder, "read").write_bytes(NOP + content)
    with open(os.path.join(folder, "read"), "rb", buffering=0) as file:
        file.seek(4)
        came = subprocess.run([program, *words], stdin=file, capture_output=True, cwd=folder, timeout=60)
        piped = subprocess.run([program, *words], input=content, capture_output=True, cwd=folder, timeout=60)
    if (came.returncode, came.stdout, came.stderr) != (piped.returncode, piped.stdout, piped.stderr) or piped.returncode == 3:
        wrong("inputs", f"{command} - with a file of which four bytes were read", came, piped)
    closed = run(program, folder, words, preexec_fn=without((0,)))
    descriptor = os.open(folder, os.O_RDONLY)
    of_folder = subprocess.run([program, *words], stdin=descriptor, capture_output=True, text=True, cwd=folder, timeout=60)
    os.close(descriptor)
    for what, done in ("without an input", closed), ("with a folder as its input", of_folder):
        if done.returncode != 3 or not done.stderr:
            wrong("inputs", f"{command} - {what}", (done.returncode, done.stderr), "status 3, and a message")


# What commands tell of a file without an end, all of whose bytes are 0.
TOO_LONG = "  more than 16777216 bytes; code has a multiple of 4, from 4 to 16777216\n"
NO_IMAGE, NO_STREAM = "image refused, fault 1\n  it is no image file\n", "connection 0: fault 1\nstrays 0\n"
ENDLESS = {
    "check": ("bad length\n", f"lfiload: bad length /dev/zero\n{TOO_LONG}"), "check --all": ("bad length\n", f"lfiload: bad length /dev/zero\n{TOO_LONG}"),
    "disassemble": ("bad length\n", f"lfiload: bad length /dev/zero\n{TOO_LONG}"), "pack": ("", f"lfiload: bad length /dev/zero\n{TOO_LONG}"),
    "info": ("too long, more than 269222272 bytes\n", ""), "load": (NO_STREAM, ""), "unpack": ("", NO_IMAGE), "run --steps 5": ("", NO_IMAGE),
}
REFUSED_AT_ONCE = ("load", "unpack", "run --steps 5")


def try_endless(program):
    """Each command on a file without an end; and those that know at the beginning that it is none of theirs on a pipe that stays open."""
    for command, wanted in ENDLESS.items():
        done = run(program, "/", [*command.split(), "/dev/zero"])
        if (done.stdout, done.stderr, done.returncode) != (*wanted, 1):
            wrong("inputs", f"{command} /dev/zero", done, (*wanted, 1))
    for command in REFUSED_AT_ONCE:
        reader, writer = os.pipe()
        os.write(writer, bytes(40_000))
        try:
            done = subprocess.run([program, *command.split(), "-"], stdin=reader, capture_output=True, text=True, timeout=60)
        except subprocess.TimeoutExpired:
            wrong("inputs", f"{command} - of zeros, after which more may come", "no end", ENDLESS[command])
        os.close(reader), os.close(writer)
        if (done.stdout, done.stderr, done.returncode) != (*ENDLESS[command], 1):
            wrong("inputs", f"{command} - of zeros, after which more may come", done, (*ENDLESS[command], 1))


# ---- far


def try_entries(program, folder):
    """Code of several lengths, entered at several words: it is loaded, and a run begins there."""
    entered = [(count, entry, kind) for count in (100_000, 1_234_567, MOST_WORDS) for entry in (1, count // 3, count // 2, count - 2) for kind in OPENS]
    for count, entry, kind in entered:
        code = NOP * entry + bytes.fromhex("000020d4") + NOP * (count - entry - 1)
        pathlib.Path(folder, "entered.stream").write_bytes(formats.stream(7, code, *kind, entry))
        told = run(program, folder, ["load", "--out", ".", "entered.stream"])
        if (told.returncode, told.stdout, told.stderr) != (0, f"module 7: complete, {count} words\nstrays 0\n", ""):
            wrong("far", f"{count} words of kind {kind}, entered at word {entry}", (told.returncode, told.stdout, told.stderr), "complete")
        came, at = run(program, folder, ["run", "module-07.img", "--steps", "3"]), formats.base(7) + 65_536 + 4 * entry
        if (came.returncode, came.stderr) != (0, f"halt 4 at {at:#018x} after 0 steps\n"):
            wrong("far", f"an image of {count} words of kind {kind}, entered at word {entry}", (came.returncode, came.stderr), "a run that begins there")
    return len(entered)


def try_lengths(program, folder):
    """Code whose length is a piece's, or near that of some: it is judged whole, and so is its last word."""
    tried = 0
    for size, beside in itertools.product((*(count << 16 for count in (1, 2, 3, 4, 5, 16, 128)), PAGE, LARGE_PAGE), (-8, -4, 0, 4, 8)):
        count = (size + beside) // 4
        for code, wanted in (NOP * count, (0, f"lawful, {count} words\n")), (NOP * (count - 1) + bytes(4), (1, f"word {count - 1} rule 1\n")):
            pathlib.Path(folder, "a.code").write_bytes(code)
            for words in ["check", "a.code"], ["check", "--profile", "2", "a.code"], ["check", "-"]:
                with open(os.path.join(folder, "a.code"), "rb") as file:
                    done = subprocess.run([program, *words], stdin=file, cwd=folder, capture_output=True, text=True, timeout=60)
                if (done.returncode, done.stdout) != wanted:
                    wrong("far", f"{' '.join(words)} of {count} words", (done.returncode, done.stdout, done.stderr), wanted)
                tried += 1
    return tried


# Few bits and many zeros: each number of words that is one of these, moved by any number of bits, up to the most.
ROUND = sorted({few << bits for few in (1, 3, 5, 7, 9, 11, 13, 15) for bits in range(23) if few << bits <= MOST_WORDS})


def try_round_lengths(program, folder):
    """Code, streams and images of so many words, by each command."""
    for count in ROUND:
        code = NOP * (count - 1) + RET
        for name, content in ("a.code", code), ("a.stream", formats.stream(9, code)), ("a.img", image(9, count - 1, code)):
            pathlib.Path(folder, name).write_bytes(content)
        rows = (
            (["check", "a.code"], (0, f"lawful, {count} words\n", "")),
            (["check", "--explain", "a.code"], (0, f"lawful, {count} words\n", "")),
            (["load", "--out", ".", "a.stream"], (0, f"module 9: complete, {count} words\nstrays 0\n", "")),
            (["run", "a.img", "--steps", "0"], (0, "", "halt 1 after 0 steps\n")),
            (["info", "a.img"], (0, f"image\n  slot 9\n  base {formats.base(9):#018x}\n  words {count}\n  entry {count - 1}\n  profile 1\n  lawful\n", "")),
        )
        for words, wanted in rows:
            done = run(program, folder, words)
            if (done.returncode, done.stdout, done.stderr) != wanted:
                wrong("far", f"{' '.join(words)} of {count} words", (done.returncode, done.stdout[:300], done.stderr), wanted)
        unpacked = subprocess.run([program, "unpack", "a.img"], cwd=folder, capture_output=True, timeout=60)
        packed = subprocess.run([program, "pack", "--module", "9", "a.code"], cwd=folder, capture_output=True, timeout=60)
        came = unpacked.stdout == code, packed.stdout == pathlib.Path(folder, "a.stream").read_bytes(), pathlib.Path(folder, "module-09.img").read_bytes() == image(9, 0, code)
        if came != (True, True, True):
            wrong("far", f"code of {count} words", came, "what unpack and pack write, and the image of load")
    return len(ROUND)


def try_small_numbers(program, folder):
    """Code of each small number of words that are small numbers, the number of the words among them; and images of lawful code, entered at each word."""
    for count in range(1, 33):
        words = [*range(count), count][-count:]
        pathlib.Path(folder, "a.code").write_bytes(formats.code_of(*words))
        told, listed = run(program, folder, ["check", "--all", "a.code"]), run(program, folder, ["disassemble", "--check", "a.code"])
        if told.returncode != 1 or f"\nwords refused: {count}\nwords with a mend: 0\n" not in told.stdout or told.stdout.count("  mend: none") != count:
            wrong("far", f"check --all of {count} small numbers", (told.returncode, told.stdout[-300:], told.stderr), "each is refused")
        if listed.returncode != 0 or listed.stdout.count("  ; rule 1\n") != count:
            wrong("far", f"disassemble of {count} small numbers", (listed.returncode, listed.stdout[-300:], listed.stderr), "each is listed")
        for entry in range(count):
            pathlib.Path(folder, "a.img").write_bytes(image(0, entry, NOP * count))
            done, end = run(program, folder, ["run", "a.img", "--steps", "100"]), formats.base(0) + 65_536 + 4 * count
            if (done.returncode, done.stderr) != (1, f"halt 3 at {end:#018x} after {count - entry} steps\n"):
                wrong("far", f"a run of {count} words from word {entry}", (done.returncode, done.stderr), "it ends behind the last word")


# sub sp, sp, #16; ldr x30, [sp, #8]; ldr x30, [x21, #16]; and a word that meets no need: br x30.
OPENING, OTHER, PAGE_WORDS = (0xD10043FF, 0xF94007FE, 0xF9400ABE), 0xD61F03C0, PAGE // 4


# COMMANDS: `load` tells what `check` does, but of RBIT at a page's end:
def try_told_alike(program, folder):
    """A need that is not met, at the begin of a module and where two pages meet, with up to four calm words between: `load` tells of it what `check`
    does."""
    tried = 0
    for profile, opening, calm, begin in itertools.product((1, 2), OPENING, range(5), (0, 1, *range(PAGE_WORDS - 6, PAGE_WORDS + 1))):
        words = [*[0xD503201F] * begin, opening, *[0xD503201F] * calm, OTHER, *[0xD503201F] * (begin % 3)]
        pathlib.Path(folder, "a.code").write_bytes(formats.code_of(*words))
        pathlib.Path(folder, "a.stream").write_bytes(formats.stream(0, formats.code_of(*words), profile))
        told = run(program, folder, ["check", "--explain", "--profile", str(profile), "a.code"])
        first, _, explained = told.stdout.partition("\n")
        wanted = f"module 0: refused, {first}\nstrays 0\nmodule 0: {first}\n{explained}module 0: from connection 0\n"
        loaded = run(program, folder, ["load", "--explain", "a.stream"])
        if told.returncode != 1 or (loaded.returncode, loaded.stdout) != (1, wanted):
            wrong("far", f"profile {profile}, {opening:08x} at {begin}, {calm} calm words", (loaded.returncode, loaded.stdout), wanted)
        tried += 1
    return tried


def try_far(program):
    """Code of the most words: what is told of the last of them, of branches between both ends, of its pages, and of a run that begins there."""
    most, last = MOST_WORDS, MOST_WORDS - 1
    ends = formats.code_of(0x14000000 | last), formats.code_of(0x14000000 | -last & 0x3FFFFFF)
    with tempfile.TemporaryDirectory() as folder:
        pathlib.Path(folder, "svc.code").write_bytes(NOP * last + bytes.fromhex("010000d4"))
        pathlib.Path(folder, "svc.stream").write_bytes(formats.stream(15, NOP * last + bytes.fromhex("010000d4"), 2, True, last))
        pathlib.Path(folder, "branches.code").write_bytes(ends[0] + NOP * (most - 2) + ends[1])
        pathlib.Path(folder, "stops.img").write_bytes(image(15, last, NOP * last + bytes.fromhex("000020d4"), 2))
        told = f"word {last} rule 1\n  0x{{:016x}}  d4000001  .inst 0xd4000001\n"
        at, high = formats.base(0) + 65_536 + 4 * last, formats.base(15) + 65_536 + 4 * last
        large = most * 4 // LARGE_PAGE
        rows = (
            (["check", "--explain", "svc.code"], 1, told.format(at)),
            (["load", "--explain", "svc.stream"], 1, f"module 15: refused, word {last} rule 1\nstrays 0\nmodule 15: " + told.format(high)),
            (["info", "svc.stream"], 0, f"stream\n  byte 0: module 15 open, {most} words, entry {last}, profile 2, large pages\n"),
            (["run", "stops.img", "--steps", "3"], 0, f"halt 4 at 0x{high:016x} after 0 steps\n"),
        )
        for words, status, wanted in rows:
            done = run(program, folder, words)
            if done.returncode != status or not (done.stdout + done.stderr).startswith(wanted):
                wrong("far", " ".join(words), (done.returncode, done.stdout[:300], done.stderr[:300]), wanted)
        info = run(program, folder, ["info", "svc.stream"]).stdout.splitlines()[-2:]
        wanted = [f"  byte {12 + (large - 1) * (12 + LARGE_PAGE)}: module 15 page {large - 1}, {LARGE_PAGE} bytes", f"  byte {12 + large * (12 + LARGE_PAGE)}: module 15 close"]
        if info != wanted:
            wrong("far", "info of the last page", info, wanted)
        listed = run(program, folder, ["disassemble", "--check", "branches.code"]).stdout
        wanted = f"      0  0x{at - 4 * last:016x}  {0x14000000 | last:08x}  b .+{4 * last}  -> word {last}\n", f"{last:7}  0x{at:016x}  {0x14000000 | -last & 0x3FFFFFF:08x}  b .-{4 * last}  -> word 0\n"
        if not listed.startswith(wanted[0]) or not listed.endswith(wanted[1]):
            wrong("far", "a listing", (listed[:100], listed[-100:]), wanted)
        entries, alike, lengths = try_entries(program, folder), try_told_alike(program, folder), try_lengths(program, folder)
        rounds = try_round_lengths(program, folder)
        try_small_numbers(program, folder)
    print(f"far: {len(rows) + 2} rows on the last of {most} words, {entries} lengths and entries of each kind of module; {alike} needs told by `check` and `load` alike; {lengths} checks of code of lengths about those of pieces; {rounds} round lengths")
