"""The example host of examples/native_host for checks/native: how it is built, and the rows in which it is called by itself. Their values
are from docs/HOST.md, the host's README, the corpus's first lines, the Arm manuals and Linux's."""

import os
import pathlib
import platform
import re
import resource
import shutil
import struct
import subprocess
import sys
import time

HERE = pathlib.Path(__file__).resolve().parent
sys.path.insert(0, str(HERE.parent))
import programs
from lib import formats
from lib.tree import EXAMPLES, TOP

HOST, DOCUMENT = TOP / "examples" / "native_host", TOP / "docs" / "HOST.md"
IS_AARCH64 = platform.machine() == "aarch64"
RUNNER = [] if IS_AARCH64 else ["qemu-aarch64"]
COMPILER = "cc" if IS_AARCH64 else "aarch64-linux-gnu-gcc"
FAULTS = {1: "guards that can be read", 2: "an entry that loses a register", 3: "a start with sp too low"}
# Registers that rows hand over at a call as no lawful code has them: by the number of the fault that does it.
UNLAWFUL = {18: "x18", 21: "x21", 22: "x22", 23: "x23", 24: "x24", 30: "x30", 31: "sp"}
# How the steps of docs/HOST.md, "Writing the code", begin.
STEPS = (
    "Reserve slot and guards without access",
    "Write the table",
    "Map 65,536 to R for reading and writing, not for execution",
    "Judge these very bytes",
    "Where they are refused",
    "Take the right to write away. Then bring the instruction caches in step",
    "Map them for reading and execution",
    "Map R to the slot's end for reading and writing",
)
# Programs over the host's files, with those that they leave out, and the linker's flags.
OVER = {
    "threads": ("command.c",),
    "registers": ("command.c",),
    "numbers": ("command.c",),
    "lawful": ("command.c", "run.c"),
    "signals": ("command.c", "run.c"),
    "mapped": (),
    "refused": (),
    "promised": (),
    "kinds": (),
    "timer": (),
    "reads": (),
    "steps": (),
}
LINKED = {
    "steps": ["-Wl,--wrap=mmap,--wrap=mprotect,--wrap=lfi_verify_update,--wrap=syscall,--wrap=__clear_cache"],
    "registers": ["-Wl,--wrap=lfi_enter"],
    "promised": ["-Wl,--wrap=mmap"],
    "kinds": ["-Wl,--wrap=lfi_version,--wrap=sysconf"],
    "timer": ["-Wl,--wrap=setitimer"],
    "reads": ["-Wl,--wrap=fread"],
}
MOST_LINES, BASE, SLOT, GUARD = 500, 0x100000000, 1 << 32, 65_536
# What --seconds doesn't take, by the host's README.
NO_SECONDS = ("x", "1x", "", "0", "-1", "-0.5", "nan", "inf", "1000001", "1e300")
ESCAPE = "ESCAPE at 0x[0-9a-f]{16}"


def fail(text):
    sys.exit(f"native: {text}")


def run(program, *words, **more):
    """A program of this host, run; it ends within a minute, or is told of."""
    try:
        return subprocess.run([*RUNNER, program, *map(str, words)], capture_output=True, timeout=60, **more)
    except subprocess.TimeoutExpired:
        fail(f"{program.name} {' '.join(map(str, words))}: it runs for more than a minute")


# ---- how it is built


def build_by_readme(host, archive):
    """Builds and starts the host by the README's lines, in a tree whose archive is where `checks/build --library` puts it; and builds it from
    another folder, with words that are told from there."""
    top = host.parent.parent
    place = top / "out" / "aarch64-unknown-linux-gnu"
    place.mkdir(parents=True)
    (place / "liblfi_verifier.a").symlink_to(archive)
    shutil.copy(EXAMPLES / "checksums.stream", host.parent)
    own = {"CC": COMPILER} if IS_AARCH64 else {}
    plain = {name: value for name, value in os.environ.items() if name != "CC"}
    readme = (HOST / "README.md").read_text(encoding="utf-8")
    _, make, start = re.findall(r"^\$ (.*)$", readme, re.M)
    lines = f"{make} && {start.removeprefix('qemu-aarch64 ') if IS_AARCH64 else start}"
    told = subprocess.run(["sh", "-c", lines], cwd=top, capture_output=True, text=True, env={**plain, **own})
    if told.returncode or f"$ {start}\n{told.stdout}{told.stderr}```" not in readme:
        fail(f"the README's lines: {told.stdout}{told.stderr}")
    room = top / "elsewhere"
    room.mkdir()
    told = subprocess.run([host / "make", "made", os.path.relpath(place / "liblfi_verifier.a", room)], cwd=room, capture_output=True, text=True, env={**os.environ, "CC": COMPILER})
    if told.returncode or told.stderr or os.listdir(room) != ["made"]:
        fail(f"make with OUT and ARCHIVE as they are called from another folder builds no host there: {told.stdout}{told.stderr}")


def build(room, archive, name, *flags):
    """Builds a host, or another program over the host's files."""
    made = room / name
    if name in OVER:
        files = sorted(it for it in HOST.iterdir() if it.suffix in (".c", ".S") and it.name not in OVER[name])
        words = ["-std=gnu11", "-O2", "-Wall", "-Wextra", "-Werror", "-static", "-pthread", "-DPLANT=0", "-I", TOP / "include", "-I", HOST]
        sources = [*files, HERE / f"{name}.c", archive]
        told = subprocess.run([COMPILER, *words, *sources, *LINKED.get(name, []), "-o", made], capture_output=True, text=True)
    else:
        # A checkout may lie below a folder with a space. Hosts are built side by side, so each has a tree and a link of its own.
        spaced = room / f"archive of {name}.a"
        spaced.symlink_to(archive)
        host = room / f"tree of {name}" / "examples" / HOST.name
        shutil.copytree(HOST, host, ignore=shutil.ignore_patterns("out"))
        shutil.copytree(TOP / "include", host.parent.parent / "include")
        if name == "native_host":
            build_by_readme(host, archive)
        told = subprocess.run([host / "make", *flags, made, spaced], capture_output=True, text=True, env={**os.environ, "CC": COMPILER})
    if told.returncode or told.stderr:
        fail(f"{name} isn't built: {told.stdout}{told.stderr}")
    return made


# ---- the document


def compare_words():
    """Each line of docs/HOST.md that the host's source cites stands there."""
    document, cited, lines = " ".join(DOCUMENT.read_text().split()), 0, 0
    for file in sorted(it for it in HOST.iterdir() if it.suffix in (".c", ".h", ".S") or it.name == "make"):
        text = file.read_text()
        lines += text.count("\n")
        for words in re.findall(r"HOST: (.*?)\s*\*/", text, flags=re.S):
            words = " ".join(re.sub(r"\n \* ", " ", words).split())
            cited += 1
            if words not in document:
                fail(f"{file.name} cites what docs/HOST.md doesn't say: {words}")
    if cited < 25 or lines >= MOST_LINES:
        fail(f"the host cites {cited} lines of docs/HOST.md, and has {lines} lines")


def part_of(heading):
    """What stands below a heading of docs/HOST.md."""
    return DOCUMENT.read_text().partition(f"\n## {heading}\n")[2].partition("\n## ")[0]


def rows_of(heading):
    """The rows of the table below a heading of docs/HOST.md, by their cells."""
    rows = [[cell.strip() for cell in line.strip("|").split("|")] for line in part_of(heading).splitlines() if line.startswith("|")]
    return [tuple(row) for row in rows[2:]]


def compare_order():
    """The steps of docs/HOST.md, "Writing the code", are those that check_steps sees, in that order; and each signal that stops code is
    Linux's (arch/arm64/kernel/traps.c and arch/arm64/mm/fault.c)."""
    steps = re.findall(r"^(\d)\. (.*)$", part_of("Writing the code"), re.M)
    if [int(number) for number, _ in steps] != list(range(1, len(STEPS) + 1)) or not all(map(str.startswith, (it for _, it in steps), STEPS)):
        fail(f"docs/HOST.md has other steps, or another order: {[(number, text[:40]) for number, text in steps]}")
    told = {halt: re.findall(r"SIG[A-Z]+", signals) for first, signals, _ in rows_of("When the code stops") for halt in re.findall(r"halt \d", first)}
    if told != {"halt 2": ["SIGSEGV"], "halt 3": ["SIGSEGV", "SIGILL", "SIGBUS"], "halt 4": ["SIGTRAP"]}:
        fail(f"docs/HOST.md, When the code stops: other signals: {told}")


def map_of(base, size, guard, table, code):
    """The table of the map, as lfi_verifier.h says what is mapped where; the numbers are those of slot 0. Nobody writes what can't be written:
    the host did so before."""
    most = int(re.search(r"define LFI_MAX_BYTES (\d+)u", (TOP / "include" / "lfi_verifier.h").read_text())[1])
    end = f"2^{size.bit_length() - 1}"
    return [
        (f"B - {guard:,} to B - 1: a guard", f"0x{base - guard:010x}", "without access", "nobody"),
        (f"B to B + {table - 1:,}: the table of entries", f"0x{base:010x}", "read", "the host, before the first start; then nobody"),
        (f"B + {table:,} to B + {code - 1:,}", f"0x{base + table:010x}", "without access", "nobody"),
        (
            f"B + {code:,} to B + R - 1: the code, then zero bytes",
            f"0x{base + code:010x}",
            "read, execute",
            "the host, before it is judged; then nobody",
        ),
        (f"B + R to B + {end} - 1: data", f"at most 0x{base + code + most:010x}", "read, write", "the code; the host in a call of its runtime"),
        (f"B + {end} to B + {end} + {guard - 1:,}: a guard", f"0x{base + size:010x}", "without access", "nobody"),
    ]


def registers_in(text):
    """The registers that a text names, one by one and from one to another; 31 is sp."""
    ranges = (range(int(first), int(last) + 1) for first, last in re.findall(r"\bx(\d+) to x(\d+)", text))
    return {int(it) for it in re.findall(r"\bx(\d+)", text)} | {it for some in ranges for it in some} | ({31} if re.search(r"\bsp\b", text) else set())


# HOST: `lfiload run` starts with x18, x21, x23, x24 and x30 at B, sp at B + 2^32 and 0 elsewhere.
def compare_registers(own, offset, *addresses):
    """Where a document lists registers that a host sets or an entry keeps, these are those that the library tells; so are those that rows spoil."""
    start, every = {own, *addresses}, {own, offset, *addresses, 31}
    lists = (
        ("HOST.md", r"\n- keeps (.*?), and gives them back as they were;", every),
        ("HOST.md", r"`lfiload run` starts with (.*?) at B, sp at B \+ 2\^32 and 0 elsewhere", start),
        ("PROFILE.md", r"A host enters it with (.*?) at B, sp at B \+ 2\^32 \(an empty stack\)", start),
    )
    for name, pattern, wanted in lists:
        told = [registers_in(it) for it in re.findall(pattern, (TOP / "docs" / name).read_text())]
        if told != [wanted]:
            fail(f"docs/{name} lists other registers than {sorted(wanted)} (31: sp): {told}")
    # HOST: x21 is B, so it tells which slot has called.
    if UNLAWFUL.keys() != every or f"x{own} is B, so it tells which slot has called" not in DOCUMENT.read_text():
        fail(f"the library tells the registers {sorted(every)} (31: sp), the rows have {sorted(UNLAWFUL)}, and docs/HOST.md another one at B")


# HOST: Slot m, 0 to 15, begins at `B = (2m + 1) * 2^32`. `lfi_profile_map` tells these numbers.
def compare_numbers(program):
    """The map and the registers of docs/HOST.md are those that the library tells, of each slot and in both profiles."""
    lines = [tuple(map(int, line.split())) for line in run(program).stdout.decode().splitlines()]
    base, size, guard, table, code, entry, step, entries = lines[0]
    slots = [((2 * m + 1) << 32, *lines[0][1:]) for m in range(formats.MODULES)]
    own, offset, *addresses, reach = lines[16]
    compare_registers(own, offset, *addresses)
    if lines != [*slots, lines[16]] * 2:
        fail(f"the library tells other bases than docs/HOST.md, or other maps for other slots: {lines}")
    end, power = f"2^{size.bit_length() - 1}", f"2^{entry.bit_length() - 1}"
    registers = [
        (f"x{own}", "B"),
        (", ".join(f"x{it}" for it in addresses), f"an address in the slot, B to B + {end} - 1"),
        (f"x{offset}", f"below {end}"),
        ("sp", f"B - {reach} to below B + {end} + {reach}"),
    ]
    others = [row for row in rows_of("Registers") if not row[0].startswith(("pc", "all others"))]
    for heading, told, wanted in (("The map", rows_of("The map"), map_of(base, size, guard, table, code)), ("Registers", others, registers)):
        if told != wanted:
            fail(f"docs/HOST.md, {heading}: it has {told}, and the library {wanted}")
    sentences = [f"begins at `B = (2m + 1) * {end}`", f"{entries} numbers of 8 bytes", f"number j is `{power} + {step}j`"]
    # HOST: **Room for it.** A slot with its guards takes 4 GiB and 128 KiB of addresses, most of which are never touched.
    sentences += [f"takes {size >> 30} GiB and {2 * guard >> 10} KiB of addresses", "x18, x21 to x24, sp and its own way back, x30"]
    sentences += [f"sp may be up to {reach} bytes outside of the slot", f"sp {reach - 1} bytes past its end"]
    # HOST: The guards are owed: a load or store reaches up to 33,279 bytes past the slot: sp 511 bytes past its end, an immediate of
    #   32,760, and 8 bytes.
    # The farthest access: LDR of 8 bytes whose imm12 is 4,095, eights of bytes (Arm DDI 0487, C6.2).
    sentences += [f"up to {reach - 1 + 8 * 4_095 + 8:,} bytes past the slot", f"an immediate of {8 * 4_095:,}, and 8 bytes."]
    # HOST: **Addresses up to 2^40 + 8,192.** The runtime's entries lie there; a system that gives a process 39 bits of addresses has no
    #   room for them.
    for words in [*sentences, f"Addresses up to {power} + {entries * step:,}."]:
        if words not in DOCUMENT.read_text():
            fail(f"docs/HOST.md doesn't say what the library tells: {words}")


# ---- the host by itself


def check_registers(registers, lawful, signals):
    """A run keeps what AAPCS64 has a function keep. The host tells lawful registers at a call, one by one at their edges; and so signals, from
    which it gets back as docs/HOST.md says."""
    for program, wanted in ((registers, b"kept: by a call 1, by a signal 1\n"), (lawful, b"7 registers\n"), (signals, b"8 signals\n")):
        done = run(program)
        if done.stdout != wanted:
            fail(f"{program.name}: status {done.returncode}\n{done.stdout.decode()}{done.stderr.decode()}")


# HOST: **Code without the process's knowledge** in the slots' or the guards' addresses: they are reserved at the start, with a call that
#   fails where something lies there (`MAP_FIXED_NOREPLACE`). Linux before 4.17 and qemu-user 7.2 take that address for a wish, and answer
#   another one where it isn't free; so the host compares the address that it is answered with the one that it asked for.
# HOST: Nothing of the host's may ever lie there.
def check_mapped(mapped):
    """Where something lies in a slot, a guard or at the entries, the host ends (mmap(2): EEXIST), and what lies there is as it was."""
    places = [(EXAMPLES / "one_ret.stream", at) for at in (BASE - GUARD, BASE + SLOT // 2, BASE + SLOT + GUARD - 4_096, 1 << 40)]
    # The page of the host's own from which the slot is entered; that of the lowest slot may be qemu's.
    places.append((EXAMPLES / "checksums.stream", formats.base(1) - GUARD - 4_096))
    for file, at in places:
        done = run(mapped, file, env={**os.environ, "MAPPED": hex(at)})
        wanted = 3, b"the page is of another part of this process\n", b"native_host: mmap: File exists\n"
        if (done.returncode, done.stdout, done.stderr) != wanted:
            fail(f"a page at {at:#x} is there first: {done}")


# HOST: Where they are refused, the pages go back to no access and are never executed.
# HOST: For another module in the same slot no thread may be in it any more, also in no call of the runtime; then all begins with 1.
def check_refused(refused, room):
    """Of a slot whose code was refused, or didn't come whole, the table alone may be read afterwards (docs/HOST.md, "Writing the code", 5);
    so of one whose module has run."""
    (room / "refused.img").write_bytes(formats.image(0, 0, formats.code_of(0xD503201F, 0xD4000001)))  # NOP, SVC #0
    for file, modules in ((room / "refused.img", [0]), (EXAMPLES / "hostile.stream", [2, 3, 4])):
        done = run(refused, file)
        tables = [f"{formats.base(m):x} {formats.base(m) + 4_096:x} r--p" for m in modules]
        if done.returncode != 1 or done.stdout.decode().splitlines() != tables:
            fail(f"after {file.name}, of which nothing is run, more may be accessed than the tables: {done}")
    done = run(refused, EXAMPLES / "checksums.stream")
    # HOST: What lies between the guards of two slots is the host's.
    # HOST: A page of its own in reach of a branch, below the lower guard, with `mov x16, #0` and a `b` to the word, is how the example does
    #   it.
    start, table = formats.base(1) - GUARD - 4_096, formats.base(1)
    if done.stdout.decode().splitlines()[2:] != [f"{start:x} {start + 4_096:x} r-xp", f"{table:x} {table + 4_096:x} r--p"]:
        fail(f"after a module that has run more may be accessed than its table and the host's start: {done}")


# HOST: and the system has to promise memory that it may not have: `MAP_NORESERVE` asks Linux for that.
def check_promised(promised, room):
    """No slot asks for a promise of its memory (docs/HOST.md, "Room for it"), also not for a second module."""
    (room / "breaks.img").write_bytes(formats.image(0, 0, formats.code_of(programs.BRK)))
    done = run(promised, "--batch", "breaks.img", "breaks.img", cwd=room)
    if (done.returncode, done.stdout.decode()) != (0, 2 * f"breaks.img 0  {broken(0, 0)}"):
        fail(f"a module and then another in a slot of which no memory is promised: {done}")


# C: a C host that names an archive by hand compares `lfi_version()` with `LFI_VERSION` |
# HOST: **Pages of 4,096 bytes.** Where a system's are larger, R needn't begin one, and table and code share one with what has no access:
#   this map can't be made.
def check_kinds(kinds):
    """A host of another interface than its library's, or on a system of other pages, runs nothing."""
    other = "native_host: pages or library of another kind: Operation not supported\n"
    for kind, wanted in ("library", (3, other)), ("pages", (3, other)), ("neither", (1, f"halt 3 at {BASE:#018x}\n")):
        done = run(kinds, EXAMPLES / "one_ret.stream", env={**os.environ, "KIND": kind})
        if (done.returncode, done.stderr.decode()) != wanted or done.stdout:
            fail(f"a host with another kind of {kind}: {done}, and not {wanted}")


def check_timer(timer):
    """A run has the time that the host's README says, and then no timer is left. It goes off again, since it may come while the code enters or
    leaves the runtime, when the host only takes a note."""
    rows = ([], "60.000000"), (["--seconds", "2.5"], "2.500000"), (["--seconds", "9.9999999"], "9.999999"), (["--seconds", "1000000"], "1000000.000000")
    for words, seconds in rows:
        done = run(timer, *words, EXAMPLES / "checksums.stream")
        told = re.findall(r"^timer: (.*)$", done.stderr.decode(), re.M)
        if done.returncode or told != [f"{seconds} again", "0.000000"]:
            fail(f"native_host {' '.join(words)}: it sets its timer to {told}, and not to {seconds} and then to 0")


def check_reads(reads, room):
    """A read that fails is told, and never as the end: of an image as fault 9 (docs/PROFILE.md, "Image files"), of a stream as the system says."""
    words = formats.code_of(*[0xD503201F] * 2_000, programs.BRK)
    files = {"end.img": formats.image(0, 0, words[-4:]), "page.img": formats.image(0, 0, words), "head.img": b"LFI1", "page.stream": formats.stream(0, words)}
    for name, file in files.items():
        (room / name).write_bytes(file)
        done = run(reads, name, cwd=room)
        wanted = (1, "image refused, fault 9\n") if name.endswith(".img") else (3, f"native_host: {name}: Bad file descriptor\n")
        if (done.returncode, done.stdout, done.stderr.decode()) != (wanted[0], b"", wanted[1]):
            fail(f"a read of {name} fails: {done}, and not {wanted}")


# HOST: In this order, for each module:
def check_steps(steps, room):
    """Of code that is one word in slot 0, RET in a stream and BRK in an image, the calls come in the order of docs/HOST.md, "Writing the code";
    so do those for code of the host's own, in other places. An image is judged where it lies; a stream is in the piece that came."""
    (room / "steps.img").write_bytes(formats.image(0, 0, formats.code_of(programs.BRK)))
    # HOST: A host that can't keep this judges the copy itself, each page by `lfi_verify_update`.
    for file, judged in (EXAMPLES / "one_ret.stream", []), (room / "steps.img", [f"{BASE + 65_536:#x} {BASE + 65_540:#x} judge"]):
        done = run(steps, file)
        told = re.findall(r"^step: (.*)$", done.stderr.decode(), re.M)
        table, code, data = (f"{BASE + first:#x} {BASE + last:#x}" for first, last in ((0, 4_096), (65_536, 69_632), (69_632, SLOT)))
        wanted = [
            # HOST: 1. Reserve slot and guards without access; no other mapping, thread or process has a way to these pages.
            f"{BASE - GUARD - 4_096:#x} {BASE + SLOT + GUARD:#x} reserve",  # step 1, with the page of the host's below
            # HOST: 2. Write the table; from then on it is read alone.
            *(f"{table} read write", f"{table} read"),  # 2
            # HOST: 3. Map 65,536 to R for reading and writing, not for execution, and bring the code there.
            # HOST: 4. Judge these very bytes (`lfi_verify`, or piece by piece as they come).
            *(f"{code} read write", *judged),  # 3 and 4
            # HOST: 6. Take the right to write away. Then bring the instruction caches in step: clean the data cache and invalidate the
            #   instruction cache from the first word to R (`__builtin___clear_cache` does it), and have each core that will execute the
            #   code synchronize its context by ISB. (On Linux that is `membarrier` with `MEMBARRIER_CMD_PRIVATE_EXPEDITED_SYNC_CORE` for
            #   threads that run elsewhere; the process registers for it once (`MEMBARRIER_CMD_REGISTER_PRIVATE_EXPEDITED_SYNC_CORE`), or
            #   the call is refused with EPERM.)
            # HOST: 7. Map them for reading and execution. They are never writable and executable at once (W^X), and never writable again.
            *(f"{code} read", f"{code} caches", "synchronize", f"{code} read execute"),  # 6 and 7
            # HOST: 8. Map R to the slot's end for reading and writing, never for execution; the profile has zero bytes there at first, the
            #   law asks for none.
            f"{data} read write",  # 8
            f"{BASE + 65_536:#x} {BASE + SLOT:#x} reserve",  # after the run
        ]
        # HOST: A file is read, and not mapped: a mapping, also a private one, may change when another process writes the file.
        own = [line for line in told if line not in wanted and not re.fullmatch(r"0x10000000000 0x1000000\w000 reserve", line)]
        if [line for line in told if line in wanted] != wanted or own[:1] != ["register"] or len(own) != 7:
            fail("the calls for code in a slot come in another order than docs/HOST.md has: " + "; ".join(told))
        for first, second, third in zip(own[1::3], own[2::3], own[3::3]):
            place = first.removesuffix(" read write")
            if [first, second, third] != [f"{place} read write", f"{place} caches", f"{place} read execute"]:
                fail("the calls for the host's own code come in another order: " + "; ".join(own))


# ---- what it tells


def heads():
    """Heads of image files that only just break what docs/PROFILE.md, "Image files", says, by the faults' numbers: the first four bytes, the
    words, the entry, the profile, the base. One is of slot 16, some of slots that lie much farther away, and some of no slot."""
    first, most = b"LFI1", formats.MOST_WORDS
    yield from ((1, it, 1, 0, 1, BASE) for it in (b"LFI0", b"LFI2", b"Lfi1", b"L\0\0\0"))
    yield from ((2, first, 1, 0, it, BASE) for it in (0, 3, 0x101, 0x10001, 0xFFFFFFFF))
    yield from ((3, first, words, entry, 1, BASE) for words, entry in ((0, 0), (most + 1, 0), (1, 1), (1, 0xFFFFFFFF)))
    yield from ((4, first, 1, 0, 1, formats.base(it)) for it in (16, 17, 99, 1 << 16, (1 << 31) - 1))
    yield from ((4, first, 1, 0, 1, it) for it in (0, 2 << 32, 32 << 32, BASE - 1, BASE + 4096, BASE + (1 << 31)))
    # Of several faults the first is told.
    yield from ((1, b"LFI0", 0, 0, 3, 0), (2, first, 0, 0, 3, 0), (3, first, 0, 0, 1, 0))


SUMS, HALTED, NOP = b"a10a5abb\nc324e8c9\n", "halt 5 status 59\n", 0xD503201F


def write_all(room, files):
    for name, file in files.items():
        (room / name).write_bytes(file)


def broken(module, word):
    """The line of a run that BRK ends, which is this word of the module's."""
    return f"halt 4 at 0x{formats.base(module) + 0x10000 + 4 * word:016x}\n"


def of_spoiled(room):
    """Files that are no image, or no lawful one: the same of each as in `cases`."""
    ends = formats.image(0, 0, formats.code_of(programs.BRK))
    cut = {"short.img": ends[:-1], "first.img": b"L", "begin.img": ends[:23]}
    # LDAR X0, [X18] by profile 1, which doesn't have it
    plain = formats.image(0, 0, formats.code_of(0xC8DFFE40))
    faults = {f"head-{number}.img": (head[0], struct.pack("<4sIIIQ", *head[1:]) + ends[24:]) for number, head in enumerate(heads())}
    write_all(room, {**cut, "more.img": ends + b"\0", "plain.img": plain, **{name: file for name, (_, file) in faults.items()}})
    for name, fault in {**{name: fault for name, (fault, _) in faults.items()}, **dict.fromkeys(cut, 5), "more.img": 6}.items():
        yield [name], 1, b"", f"image refused, fault {fault}\n"
    yield ["--batch", "head-1.img"], 1, b"head-1.img 0  image refused, fault 1\n", ""
    yield ["plain.img"], 1, b"", "image refused, fault 7, word 0 rule 1\n"


# HOST: | so do LDAR and STLR of profile 2 | SIGBUS where the address is no multiple of their size; on a processor with FEAT_LSE2 only where
#   they cross a multiple of 16 | it stops where the definitions go on, unless the host carries the access out |
# HOST: For the last row to be as in the definitions, its handler carries the access out.
def of_ordered(room):
    """LDAR at addresses that are no multiples of its size, carried out and not."""
    # LDAR X0, [X18]: 15 bytes past a multiple of 16; and at the table's last byte, by which it leaves it
    for name, place in ("crossing.img", 0x2000F), ("table.img", 0xFFF):
        code = [*programs.move(9, place), programs.guard(18, 9), 0xC8DFFE40, programs.BRK]
        write_all(room, {name: formats.image(0, 0, formats.code_of(*code), 2)})
    yield ["crossing.img"], 1, b"", "bus at 0x000000010002000f\n"
    yield ["--emulate", "crossing.img"], 0, b"", broken(0, 4)
    yield ["--emulate", "table.img"], 1, b"", f"halt 2 at 0x{BASE + 0x1000:016x}\n"
    # MOVN X0, #0; LDAR W0 or LDARH W0, [X18]; LSR X0, X0, #32 or #16; it prints the low byte.
    for name, load, shift in ("word.img", 0x88DFFE40, 0xD360FC00), ("half.img", 0x48DFFE40, 0xD350FC00):
        code = [0x92800000, *programs.move(9, 0x2000F), programs.guard(18, 9), load, shift, *programs.call(1), programs.BRK]
        write_all(room, {name: formats.image(0, 0, formats.code_of(*code), 2)})
        yield ["--emulate", name], 0, b"\0", broken(0, len(code) - 1)


# HOST: The zeros are a matter of secrets, of which the law doesn't speak: what the host leaves in a register the code can read.
def of_several(room):
    """What comes behind another one in the same process finds nothing of it: no bytes that were refused, no registers, no time that is over."""
    codes = {
        "exit.img": (NOP, 0xD2800BA8, 0xD2800540, 0xD4000001),  # NOP; MOV X8, #93; MOV X0, #42; SVC #0
        "falls.img": (NOP,),
        "sets.img": (*programs.move(5, 65), *programs.call(0)),
        "shows.img": (0xAA0503E0, *programs.call(1), programs.BRK),  # MOV X0, X5
        "loop.img": (programs.branch(0),),
    }
    write_all(room, {name: formats.image(0, 0, formats.code_of(*code)) for name, code in codes.items()})
    write_all(room, {"exit.stream": formats.stream(0, formats.code_of(*codes["exit.img"]))})
    falls, sums = f"falls.img 0  halt 3 at 0x{BASE + 0x10004:016x}\n", EXAMPLES / "checksums.stream"
    for (first, second), status, lines in (
        (("exit.img", "falls.img"), 1, f"exit.img 0  image refused, fault 7, word 3 rule 1\n{falls}"),
        (("exit.stream", "falls.img"), 1, f"exit.stream 0  not run\n{falls}"),
        (("sets.img", "shows.img"), 0, f"sets.img 0  halt 5 status 0\nshows.img 0 00 {broken(0, 3)}"),
        (("loop.img", sums), 0, f"loop.img 0  halt 1\n{sums} 1 {SUMS.hex()} {HALTED}"),
    ):
        yield ["--batch", "--seconds", "2", first, second], status, lines.encode(), ""


def of_places(room):
    """Code of the most words, entered at the first and at the last, of several pages, of which the last isn't full, in far slots; and a signal
    where nothing may be written at sp."""
    far = formats.code_of(*[NOP] * 2_000, programs.BRK)
    most = formats.code_of(programs.BRK) + formats.code_of(NOP) * (formats.MOST_WORDS - 1)
    nowhere = formats.code_of(0x52900000, 0x8B2042BF, programs.BRK)  # MOVZ W0, #0x8000; ADD SP, X21, W0, UXTW
    last = formats.code_of(NOP) * (formats.MOST_WORDS - 1) + formats.code_of(programs.BRK)
    images = {"most.img": formats.image(0, 0, most), "far.img": formats.image(15, 0, far), "nowhere.img": formats.image(0, 0, nowhere)}
    write_all(room, {**images, "far.stream": formats.stream(14, far), "last.img": formats.image(2, formats.MOST_WORDS - 1, last)})
    for name, module, word in ("most.img", 0, 0), ("far.img", 15, 2_000), ("far.stream", 14, 2_000), ("nowhere.img", 0, 2), ("last.img", 2, formats.MOST_WORDS - 1):
        yield [name], 0, b"", broken(module, word)


def of_words(room):
    """Words of the command line, and files that can't be read."""
    usage = "usage: native_host [--emulate] [--seconds N] [--batch] FILE..\n"
    write_all(room, {"loop.img": formats.image(0, 0, formats.code_of(programs.branch(0)))})
    for seconds in ("0.05", "0.0000001"):
        yield ["--seconds", seconds, "loop.img"], 0, b"", "halt 1\n"
    yield ["missing.img"], 3, b"", "native_host: missing.img: No such file or directory\n"
    yield [room], 3, b"", f"native_host: {room}: Is a directory\n"
    for wrong in ([], ["--batch"], ["--seconds"], ["--other", "loop.img"], *(["--seconds", it, "loop.img"] for it in NO_SECONDS)):
        yield wrong, 2, b"", usage


def cases(room, corpus):
    """What the host tells, by its README: words of the command line, the status, both outputs. `corpus` has images with what they print and
    their last lines."""
    for case in corpus:
        out, line = case.written
        yield ["--emulate", case.name], int(line.startswith(("halt 2", "halt 3"))), out, f"{line}\n"
    stack, flags = ((case.name, case.written) for case in corpus if case.name in ("corpus-stack.img", "corpus-flags.img"))
    for first, second in ((stack, flags), (flags, stack)):
        lines = [f"{name} 0 {out.hex()} {line}\n" for name, (out, line) in (first, second)]
        yield ["--batch", first[0], second[0]], 1, "".join(lines).encode(), ""
    yield [EXAMPLES / "checksums.stream"], 0, SUMS, HALTED
    yield [EXAMPLES / "two_modules.stream"], 1, SUMS, f"halt 3 at 0x{BASE:016x}\n{HALTED}"  # RET at the start goes to B, the table
    yield [EXAMPLES / "hostile.stream"], 1, b"", "not run\n" * 3
    yield ["--batch", EXAMPLES / "hostile.stream"], 1, b"".join(b"%s %d  not run\n" % (bytes(EXAMPLES / "hostile.stream"), m) for m in (2, 3, 4)), ""
    for part in of_spoiled, of_ordered, of_several, of_places, of_words:
        yield from part(room)


# HOST: None of these leaves the slot. The host ends the code, by its handler on its own stack; what it makes of the slot's data is its
#   affair.
def check_told(host, room, corpus):
    """The status and both outputs of single runs. Answers how many there were."""
    count = 0
    for words, status, out, line in cases(room, corpus):
        done, count = run(host, *words, cwd=room), count + 1
        if (done.returncode, done.stdout, done.stderr.decode()) != (status, out, line):
            fail(f"native_host {' '.join(map(str, words))}: {done}, and not status {status}, {out}, {line}")
    if not takes_many(host, room):
        fail("native_host --batch, with more files than it may have open: not all were run")
    tell_full(host, room)
    tell_late(host, room)
    return count + 6


def takes_many(host, room):
    """Whether it runs more files than a process may have open at once."""
    (room / "ends.img").write_bytes(formats.image(0, 0, formats.code_of(programs.BRK)))
    done = run(host, "--batch", *["ends.img"] * 100, cwd=room, preexec_fn=lambda: resource.setrlimit(resource.RLIMIT_NOFILE, (50, 50)))
    return (done.returncode, done.stdout) == (0, f"ends.img 0  halt 4 at 0x{BASE + 0x10000:016x}\n".encode() * 100)


def tell_full(host, room):
    """Code whose byte can't be written ends there with 255, as `lfiload run --help` says; a batch that can't be told has the status 3."""
    (room / "prints.img").write_bytes(formats.image(0, 0, formats.code_of(*programs.call(1), programs.BRK)))
    ended, untold = (0, b"halt 5 status 255\n"), (3, b"native_host: standard output: No space left on device\n")
    for words, wanted in ([EXAMPLES / "checksums.stream"], ended), (["prints.img"], ended), (["--batch", "prints.img"], untold):
        with open("/dev/full", "wb") as full:
            done = subprocess.run([*RUNNER, host, *words], cwd=room, stdout=full, stderr=subprocess.PIPE, timeout=60)
        if (done.returncode, done.stderr) != wanted:
            fail(f"native_host {' '.join(map(str, words))}, to a device that is full: {done}, and not {wanted}")


def tell_late(host, room):
    """A run whose time is up while its output waits for a reader is told as one whose time is up, and its process ends well."""
    (room / "endless.img").write_bytes(formats.image(0, 0, formats.code_of(*programs.call(1), programs.branch(-2))))
    for words in ["endless.img"], ["--batch", "endless.img"]:
        with subprocess.Popen([*RUNNER, host, "--seconds", "1", *words], cwd=room, stdout=subprocess.PIPE, stderr=subprocess.PIPE) as running:
            time.sleep(2)
            out, err = running.communicate(timeout=60)
        told = out.split(b" ", 3)[-1] if words[1:] else err
        if running.returncode or told != b"halt 1\n":
            fail(f"native_host {' '.join(words)}, of which nobody reads until its time is up: status {running.returncode}, {told[:80]}, {err}")


# HOST: **At an entry** x30 and pc of the definitions are both the address of the word after the call, which lies in the slot. On a
#   processor pc is the entry's and x30 that address.
def check_escapes(hosts, room):
    """Each register that isn't lawful at a call is told as an escape. `hosts` have a fault each."""
    (room / "call.img").write_bytes(formats.image(0, 0, formats.code_of(*programs.call(1), programs.BRK)))
    for number, host in hosts.items():
        done = run(host, "call.img", cwd=room)
        if done.returncode != 9 or done.stdout or not re.fullmatch(f"{ESCAPE}\n", done.stderr.decode()):
            fail(f"{UNLAWFUL[number]} isn't lawful at a call, and no escape is told: {done}")
