"""The parts of checks/hostile on how many calls and pages of memory a run asks for, and on the most that one client or one command takes."""

import contextlib
import fcntl
import json
import os
import pathlib
import re
import subprocess
import tempfile

from lib import formats
from lib.cases import NOP, PRINTS, RET, WHOLE, run, wrong
from lib.serving import connected


# ---- reads


def calls_of(process):
    """How many reads and writes a process asked for that has ended; 0 where the system doesn't tell that here."""
    try:
        told = pathlib.Path("/proc", str(process), "io").read_text()
    except OSError:
        return 0, 0
    return tuple(int(re.search(rf"{key}: (\d+)", told)[1]) for key in ("syscr", "syscw"))


def cost_of(program, folder, words):
    """How many reads and writes a run asked for, and how many pages of memory it touched first; and what it wrote."""
    with open(os.path.join(folder, "told"), "wb") as told:
        running = subprocess.Popen([program, *words], cwd=folder, stdin=subprocess.DEVNULL, stdout=told, stderr=told)
        os.waitid(os.P_PID, running.pid, os.WEXITED | os.WNOWAIT)
        calls = calls_of(running.pid)
        _, _, used = os.wait4(running.pid, 0)
    return (*calls, used.ru_minflt), pathlib.Path(folder, "told").read_bytes()


# add x18, x21, w1, uxtw; ldp x2, x3, [x18]; ldr x4, [x18, #8]; add w1, w1, #16, lsl #12; b to the first: it loads from each 65,536 bytes of the slot.
LOADS = formats.code_of(0x8B2142B2, 0xA9400E42, 0xF9400644, 0x11404021, 0x17FFFFFC)
# Words, the beginning of what is written, and the most reads, writes and pages of memory. A verdict, a report and a page of a list are written at once,
# and an image and a packed stream have 4,096 pages.
COSTS = (
    (["load", "small.stream"], b"module 0: complete, 1 words\nstrays 0\n", 20, 1, 300),
    (["load", "large.stream"], b"module 0: complete, 2097152 words\nstrays 0\n", 100, 1, 2_700),
    (["load", "--format", "json", "large.stream", "small.stream"], b'{"modules":[', 100, 1, 2_700),
    (["load", "--out", "out", "long.stream"], b"module 0: complete, 4194304 words\nstrays 0\n", 200, 4_098, 5_000),
    (["check", "long.code"], b"lawful, 4194304 words\n", 300, 1, 150),
    (["check", "--profile", "2", "long.code"], b"lawful, 4194304 words\n", 300, 1, 150),
    (["check", "long.code", "half.code", "long.code"], b"long.code: lawful, 4194304 words\n", 600, 3, 150),
    (["check", "--explain", "long.code"], b"lawful, 4194304 words\n", 200, 1, 4_500),
    (["check", "--format", "json", "long.code"], b'{"files":[', 200, 2, 4_500),
    (["check", "--all", "half.code"], b"word 1 rule 1\n", 30, 35, 130),
    (["check", "--all", "zeros.code"], b"word 0 rule 1\n", 30, 2_260, 260),
    (["disassemble", "zeros.code"], b"      0  0x0000000100010000  00000000  .inst 0x00000000\n", 30, 446, 260),
    (["disassemble", "half.code"], b"      0  0x0000000100010000  d65f03c0  ret x30\n", 30, 13, 130),
    (["info", "long.img"], b"image\n", 200, 1, 8_700),
    (["info", "long.stream"], b"stream\n", 200, 1, 4_700),
    (["run", "long.img", "--steps", "0"], b"halt 1 after 0 steps\n", 4_200, 1, 4_600),
    (["run", "long.img", "--steps", "100"], b"halt 1 after 100 steps\n", 4_200, 1, 4_650),
    (["run", "long.img", "--steps", "4194304"], b"halt 1 after 4194304 steps\n", 4_200, 1, 21_500),
    (["run", "loads.img", "--steps", "50000"], b"halt 1 after 50000 steps\n", 30, 1, 300),
    (["unpack", "long.img"], WHOLE, 4_200, 4_096, 4_500),
    (["pack", "long.code"], b"\x01", 200, 8_194, 4_500),
)


def try_reads(program):
    """A file is read in pieces that are neither small nor large, what is written is, and no memory is touched that isn't needed."""
    with tempfile.TemporaryDirectory() as folder:
        os.mkdir(os.path.join(folder, "out"))
        for name, content in (
            ("small.stream", formats.stream(0, RET)), ("large.stream", formats.stream(0, NOP * 2_097_152)), ("long.stream", formats.stream(0, WHOLE)),
            ("long.code", WHOLE), ("half.code", (RET + bytes(4)) * 1_000), ("zeros.code", bytes(4 * 65_536)),
            ("long.img", formats.image(0, 0, WHOLE)), ("loads.img", formats.image(0, 0, LOADS)),
        ):
            pathlib.Path(folder, name).write_bytes(content)
        for words, wanted, *most in COSTS:
            cost, told = cost_of(program, folder, words)
            if not told.startswith(wanted) or any(came > limit for came, limit in zip(cost, most)):
                wrong("reads", words, (*cost, told[:100]), f"at most {most[0]} reads, {most[1]} writes and {most[2]} pages of memory, and {wanted[:100]!r}")
    print(f"reads: {len(COSTS)} commands on the most words ask for few reads, writes and pages of memory")


# ---- most


def try_strays(program):
    """A client of `serve` that sends more bytes than all modules have: each message is counted."""
    part, times = formats.header(formats.CLOSE, 0, 5, 0, 0) * 1_000_000, 30
    with tempfile.TemporaryDirectory() as folder:
        path = os.path.join(folder, "s")
        serve = subprocess.Popen([program, "serve", "--socket", path, "--connections", "1"], stdout=subprocess.PIPE, text=True)
        with connected(path) as client, contextlib.suppress(OSError):
            for _ in range(times):
                client.sendall(part)
        told = serve.communicate(timeout=60)[0], serve.returncode
    if told != (f"strays {times}000000\n", 0):
        wrong("most", f"{times} million messages of a module that isn't open", told, f"strays {times}000000")


def try_modules(program, profile, large):
    """All modules of the most words from one connection; and so with the last one refused at its first word, so that its pages are given again."""
    whole = "".join(f"module {module}: complete, {formats.MOST_WORDS} words\n" for module in range(formats.MODULES - 1))
    refused = bytes(4) + WHOLE[4:]
    for code, told, status in (WHOLE, f"complete, {formats.MOST_WORDS} words", 0), (refused, "refused, word 0 rule 1", 1):
        with tempfile.TemporaryDirectory() as folder:
            with open(os.path.join(folder, "most.stream"), "wb") as file:
                for module in range(formats.MODULES - 1):
                    file.write(formats.stream(module, WHOLE, profile, large))
                file.write(formats.stream(formats.MODULES - 1, code, profile, large))
            done = run(program, folder, ["load", "most.stream"])
        if (done.stdout, done.returncode) != (f"{whole}module 15: {told}\nstrays 0\n", status):
            wrong("most", f"sixteen modules of the most words, profile {profile}, large pages {large}", (done.stdout, done.returncode), told)


def try_most(program):
    """All modules of the most words, in small and in large pages; many messages that belong to none."""
    for profile, large in (1, False), (2, True):
        try_modules(program, profile, large)
    try_strays(program)
    print(f"most: {formats.MODULES} modules of {formats.MOST_WORDS} words from one connection, in small and large pages, also with the last one refused; 30 million other messages")


# ---- many

# More than 32 bits count.
MANY = (1 << 32) + 5


def try_many(program):
    """A stream of more messages of no open module than 32 bits count: each is counted, of its connection and of all."""
    message, more = formats.header(formats.CLOSE, 0, 5, 0, 0), 1 << 20
    part = message * more
    words = [program, "load", "--verifiers", "1", "--format", "json", "/dev/stdin"]
    with subprocess.Popen(words, stdin=subprocess.PIPE, stdout=subprocess.PIPE) as load:
        fcntl.fcntl(load.stdin, fcntl.F_SETPIPE_SZ, 1 << 20)
        with contextlib.suppress(OSError):
            for _ in range(MANY // more):
                load.stdin.write(part)
            load.stdin.write(message * (MANY % more))
        told = json.loads(load.communicate()[0] or "{}")
    came = [it.get("strays") for it in (*told.get("connections", []), told)], load.returncode
    if came != ([MANY, MANY], 0):
        wrong("many", f"{MANY} messages of a module that isn't open", came, [MANY, MANY])
    print(f"many: {MANY} messages of a stream that no module takes")


# ---- large

TOO_LONG = "lfiload: bad length long.code\n  more than 16777216 bytes; code has a multiple of 4, from 4 to 16777216\n"


def expect(program, folder, words, wanted):
    """A command whose status and outputs are these."""
    done = run(program, folder, words)
    if (done.returncode, done.stdout, done.stderr) != wanted:
        told = (done.returncode, done.stdout[:300], len(done.stdout), done.stderr[:300])
        wrong("large", " ".join(words)[:100], told, (wanted[0], wanted[1][:300], len(wanted[1]), wanted[2][:300]))


def try_lengths(program, folder):
    """Code of the most words and of one more."""
    for name, code in ("most", WHOLE), ("long", WHOLE + NOP):
        pathlib.Path(folder, f"{name}.code").write_bytes(code)
    whole = f"lawful, {formats.MOST_WORDS} words"
    begin = '{"files":[{"path":"%s.code","profile":1,"verdict":'
    for more in [], ["--explain"], ["--explain", "--all"]:
        expect(program, folder, ["check", *more, "most.code"], (0, f"{whole}\n", ""))
        expect(program, folder, ["check", *more, "long.code"], (1, "bad length\n", TOO_LONG))
    expect(program, folder, ["check", "--format", "json", "most.code"], (0, f'{begin % "most"}"lawful","words":{formats.MOST_WORDS}}}]}}\n', ""))
    expect(program, folder, ["check", "--format", "json", "long.code"], (1, f'{begin % "long"}"bad length","bytes":16777217}}]}}\n', TOO_LONG))


def try_messages(program, folder):
    """`info` of four modules of the most words, and of 70,000 messages of modules that aren't open."""
    at, lines = 0, ["stream"]
    with open(os.path.join(folder, "pages.stream"), "wb") as file:
        for module in range(4):
            for message in formats.messages(module, WHOLE):
                kind, index, size = message[0], int.from_bytes(message[4:8], "little"), len(message) - 12
                told = {1: f"open, {formats.MOST_WORDS} words, entry 0, profile 1, small pages", 2: f"page {index}, {size} bytes", 3: "close"}[kind]
                lines.append(f"  byte {at}: module {module} {told}")
                at += len(message)
                file.write(message)
    expect(program, folder, ["info", "pages.stream"], (0, "".join(f"{line}\n" for line in lines), ""))
    count = 70_000
    pathlib.Path(folder, "strays.stream").write_bytes(formats.header(formats.CLOSE, 0, 5, 0, 0) * count)
    expect(program, folder, ["load", "strays.stream"], (0, f"strays {count}\n", ""))
    unused = [{"module": module, "outcome": "unused"} for module in range(formats.MODULES)]
    told = {"modules": unused, "connections": [{"connection": 0, "path": "strays.stream", "strays": count}], "strays": count, "images": []}
    expect(program, folder, ["load", "--format", "json", "strays.stream"], (0, json.dumps(told, separators=(",", ":")) + "\n", ""))
    pathlib.Path(folder, "listed.stream").write_bytes(formats.messages(0, RET)[0] + formats.header(formats.CLOSE, 0, 5, 0, 0) * count)
    lines = ["stream", "  byte 0: module 0 open, 1 words, entry 0, profile 1, small pages", *(f"  byte {12 * at}: module 5 close" for at in range(1, count + 1))]
    expect(program, folder, ["info", "listed.stream"], (0, "".join(f"{line}\n" for line in lines), ""))


def try_names(program, folder):
    """Folders and files with the longest names: images are written there, and what is told names them whole."""
    deep = os.path.join(*["f" * 255] * 15)
    os.makedirs(os.path.join(folder, deep))
    for name in "one.stream", os.path.join(deep, "one.stream"):
        pathlib.Path(folder, name).write_bytes(formats.stream(0, RET))
    expect(program, folder, ["load", "--out", deep, "one.stream"], (0, "module 0: complete, 1 words\nstrays 0\n", ""))
    if pathlib.Path(folder, deep, "module-00.img").read_bytes() != formats.image(0, 0, RET):
        wrong("large", "an image in a folder with a long name", "other bytes", "the image")
    for module in range(formats.MODULES):
        with open(os.path.join(folder, "all.stream"), "ab") as file:
            file.write(formats.stream(module, RET))
    os.mkdir(os.path.join(folder, "shortname"))
    for form in "text", "json":
        short, long = (run(program, folder, ["load", "--out", it, "--format", form, "all.stream"]) for it in ("shortname", deep))
        told = short.returncode, short.stdout.replace("shortname", deep), ""
        if (long.returncode, long.stdout, long.stderr) != told or told[0] or form == "json" and told[1].count(deep) != formats.MODULES:
            wrong("large", f"sixteen images in a folder with a long name, told as {form}", (long.returncode, long.stdout, long.stderr), told)
    for words in ["load", "--explain"], ["load", "--format", "json"], ["info"], ["check"], ["check", "--format", "json"], ["disassemble"]:
        short, long = (run(program, folder, [*words, name]) for name in ("one.stream", os.path.join(deep, "one.stream")))
        told = [it.replace("one.stream", os.path.join(deep, "one.stream")) for it in (short.stdout, short.stderr)]
        if (long.returncode, long.stdout, long.stderr) != (short.returncode, *told):
            wrong("large", f"{' '.join(words)} of a file with a long name", (long.returncode, long.stdout, long.stderr), told)


def try_images(program, folder):
    """The image of the most words, as `load` writes it and `unpack` gives its code back; a listing that is long."""
    pathlib.Path(folder, "most.stream").write_bytes(formats.stream(3, WHOLE))
    expect(program, folder, ["load", "--out", ".", "most.stream"], (0, f"module 3: complete, {formats.MOST_WORDS} words\nstrays 0\n", ""))
    if pathlib.Path(folder, "module-03.img").read_bytes() != formats.image(3, 0, WHOLE):
        wrong("large", "an image of the most words", "other bytes", "the image")
    done = subprocess.run([program, "unpack", "module-03.img"], cwd=folder, capture_output=True, timeout=60)
    if (done.returncode, done.stdout, done.stderr) != (0, WHOLE, b""):
        wrong("large", "unpack of an image of the most words", (done.returncode, len(done.stdout), done.stderr), "its code")
    back = formats.code_of(0x14000000 | 1 - formats.MOST_WORDS & 0x3FFFFFF)
    pathlib.Path(folder, "thrice.img").write_bytes(formats.image(3, 0, WHOLE[4:] + back))
    expect(program, folder, ["run", "thrice.img", "--steps", str(3 * formats.MOST_WORDS)], (0, "", f"halt 1 after {3 * formats.MOST_WORDS} steps\n"))
    count, begin = 400_000, formats.base(0) + 65_536
    pathlib.Path(folder, "listed.code").write_bytes(WHOLE[: 4 * count])
    lines = "".join(f"{place:7}  {begin + 4 * place:#018x}  d503201f  nop\n" for place in range(count))
    expect(program, folder, ["disassemble", "listed.code"], (0, lines, ""))


def left_in_groups():
    """How many bytes of memory are left in each control group of this process that has a limit."""
    top = pathlib.Path("/sys/fs/cgroup")
    for line in pathlib.Path("/proc/self/cgroup").read_text().splitlines():
        _, kinds, path = line.split(":", 2)
        root, limit, used = (top, "memory.max", "memory.current") if not kinds else (top / "memory", "memory.limit_in_bytes", "memory.usage_in_bytes")
        for place in [root / path.lstrip("/"), *(root / path.lstrip("/")).parents] if kinds in ("", "memory") else ():
            with contextlib.suppress(OSError, ValueError):
                yield int((place / limit).read_text()) - int((place / used).read_text())


def memory_left():
    """How many bytes of memory this process may still take, by what the system says; 0 where it doesn't say so."""
    try:
        whole = 1024 * int(re.search(r"MemAvailable: *(\d+)", pathlib.Path("/proc/meminfo").read_text())[1])
        return min([whole, *left_in_groups()])
    except (OSError, TypeError):
        return 0


def try_whole_slot(program, folder):
    """A run that stores in each 65,536 bytes of its data, upwards or downwards, has memory for all of them, which is 4 GiB."""
    if memory_left() < 6 << 30:
        print("large: left out is a run that stores in its whole slot, since there are no 6 GiB of memory")
        return
    # MOVZ W1, #2, LSL #16; STR X0, [X21, W1, UXTW]; ADD W1, W1, #16, LSL #12; B to the store.
    up = formats.code_of(0x52A00041, 0xF8214AA0, 0x11404021, 0x17FFFFFE)
    # MOVN W1, #7; STR X0, [X21, W1, UXTW]; SUB W1, W1, #16, LSL #12; B to the store.
    down = formats.code_of(0x128000E1, 0xF8214AA0, 0x51404021, 0x17FFFFFE)
    for name, code, first, stores in ("up.img", up, 0, 65_534), ("down.img", down, 65_528, 65_535):
        pathlib.Path(folder, name).write_bytes(formats.image(0, 0, code))
        # Past the slot comes the table, and before 65,536 there is nothing.
        told = f"halt 2 at {formats.base(0) + first:#018x} after {1 + 3 * stores} steps\n"
        expect(program, folder, ["run", name, "--steps", "1000000"], (1, "", told))


def try_refused(program, folder, count):
    """So many refused words, explained, in an object, and marked in a listing."""
    pathlib.Path(folder, "refused.code").write_bytes(bytes(4 * count))
    done = run(program, folder, ["check", "--explain", "--all", "refused.code"])
    lines = [line for line in done.stdout.splitlines() if line.startswith("word")]
    if lines != [*(f"word {place} rule 1" for place in range(count)), f"words refused: {count}", "words with a mend: 0"]:
        wrong("large", f"{count} refused words", (len(lines), lines[-3:], done.stderr), "all of them, and their count")
    done = run(program, folder, ["check", "--format", "json", "--all", "refused.code"])
    words = [it["word"] for it in json.loads(done.stdout or '{"files":[{}]}')["files"][0].get("refused", [])]
    if (done.returncode, words) != (1, list(range(count))):
        wrong("large", f"{count} refused words in an object", (done.returncode, len(words), done.stderr), "all of them")
    done = run(program, folder, ["disassemble", "--check", "refused.code"])
    if (done.returncode, done.stdout.count("; rule 1\n")) != (0, count):
        wrong("large", f"{count} marked words", (done.returncode, done.stdout.count("; rule 1"), done.stderr), "all of them")


def try_counts(program, folder):
    """As many files as a stream has modules, packed; many refused words; a run that prints many bytes."""
    codes = [NOP * (1_000 * number) + RET for number in range(formats.MODULES)]
    for number, code in enumerate(codes):
        pathlib.Path(folder, f"{number}.code").write_bytes(code)
    packed = subprocess.run([program, "pack", *(f"{number}.code" for number in range(formats.MODULES))], cwd=folder, capture_output=True)
    if (packed.returncode, packed.stdout, packed.stderr) != (0, b"".join(map(formats.stream, range(formats.MODULES), codes)), b""):
        wrong("large", "sixteen files, packed", (packed.returncode, packed.stdout[:100], packed.stderr), "the streams of all")
    try_refused(program, folder, 70_000)
    # Nearly as many as the system lets one name.
    pathlib.Path(folder, "a").write_bytes(RET)
    for command, line in ("check", "lawful, 1 words"), ("info", "code, 1 words"):
        expect(program, folder, [command, *"a" * 150_000], (0, f"a: {line}\n" * 150_000, ""))
    entry = formats.MOST_WORDS - 1
    pathlib.Path(folder, "most.code").write_bytes(WHOLE)
    packed = subprocess.run([program, "pack", "--entry", str(entry), "most.code"], cwd=folder, capture_output=True)
    if (packed.returncode, packed.stdout == formats.stream(0, WHOLE, entry=entry), packed.stderr) != (0, True, b""):
        wrong("large", "code that is entered at its last word, packed", (packed.returncode, packed.stdout[:100], packed.stderr), "its stream")
    pathlib.Path(folder, "prints.img").write_bytes(formats.image(0, 0, PRINTS))
    expect(program, folder, ["run", "prints.img", "--steps", "600000"], (0, "\0" * 200_000, "halt 1 after 600000 steps\n"))


def try_services(program, folder):
    """Each entry from 2 on does nothing but set all bits of x0."""
    for entry in range(2, 512):
        # MOVZ X0, #72; LDR X30, [X21, #8 * entry]; BLR X30; LSR X0, X0, #32; LDR X30, [X21]; BLR X30
        code = formats.code_of(0xD2800900, 0xF94002BE | entry << 10, 0xD63F03C0, 0xD360FC00, 0xF94002BE, 0xD63F03C0)
        pathlib.Path(folder, "calls.img").write_bytes(formats.image(entry % 16, 0, code))
        expect(program, folder, ["run", "calls.img", "--steps", "100"], (0, "", "halt 5 status 255 after 5 steps\n"))


def try_large(program):
    """Each command on the most that it takes, or on much."""
    for part in try_lengths, try_messages, try_names, try_images, try_counts, try_services, try_whole_slot:
        with tempfile.TemporaryDirectory() as folder:
            part(program, folder)
    print("large: code of the most words and of one more, 16,392 messages, names of 3,839 bytes, sixteen files packed, an image of the most words, 400,000 listed and 70,000 refused words, 150,000 files, 200,000 printed bytes, calls of 510 entries")
