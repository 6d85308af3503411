"""What commands tell of drawn files, in words and as objects: modes of checks/fuzz.

What the reference implementation (lib/plain.py) knows is compared with it. Assembly text, sentences and mends are taken from the text that
the program prints, from the lines where docs/COMMANDS.md has them; the object is then put together from both, and compared whole.
"""

import contextlib
import json
import pathlib
import re
import struct
import subprocess
import tempfile

from lib import tree
from lib.drawing import some_code, some_image, some_text
from lib.formats import MODULES, OPENED, PROFILES, SIZES, base, code_of, stream, words_of
from lib.plain import RULES, connection, cut, image_fault, outcome, reports
from lib.serving import connected

HINTS = {
    "elf": "an ELF file; aarch64-linux-gnu-objcopy -O binary -j .text FILE CODE writes its code",
    "image": "an image; lfiload run runs it, lfiload unpack writes its code",
    "stream": "a stream; lfiload load loads its modules",
    None: "no stream; lfiload pack makes one of code",
}
NAMES = ("a.code", "b c", 'q"u\\o', "\u00e9\u4e16", "tab\there", "-x.code", "sub/d.code")
FIRST_WORD = 65_536  # where code begins, from its slot's base on


def told_faults(column):
    """The words of faults by their numbers, from the table of docs/PROFILE.md: of a stream, or of an image file."""
    table = (tree.TOP / "docs" / "PROFILE.md").read_text(encoding="utf-8").partition("\n## Faults\n")[2].partition("\n## ")[0]
    rows = [[cell.strip() for cell in line.split("|")[1:-1]] for line in table.splitlines() if re.match(r"\| \d", line)]
    return {int(row[0]): row[column] for row in rows}


STREAM_FAULTS, IMAGE_FAULTS = told_faults(2), told_faults(4)


def kind_of(data):
    """What a file's first four bytes are those of, or None."""
    kind, second, module = struct.unpack("<BBH", data[:4]) if len(data) >= 4 else (0, 0, 0)
    if data[:4] in (b"\x7fELF", b"LFI1"):
        return "elf" if data[:1] == b"\x7f" else "image"
    return "stream" if module < MODULES and second in {1: (0,), 4: (0, 2)}.get(kind, ()) else None


def run(program, folder, *words):
    return subprocess.run([program, *words], cwd=folder, stdin=subprocess.DEVNULL, capture_output=True, text=True, errors="replace", timeout=60)


def bad_length(name, data):
    """What is told of a file that is no code, by its length."""
    return f"bad length {name}\n  {len(data)} bytes; code has a multiple of 4, from 4 to 16777216"


def some_words(source):
    """Words for a listing or a report: drawn ones, those that other words mend, and prefetches, whose mends are empty. A few are at places
    above 65,536."""
    count = source.choice((1, 2, 3, 8, 40))
    words = list(words_of(some_code(source, count)))
    if source.random() < 0.02:
        before = source.choice((70_000, 140_000, 270_000))
        count, words = count + before, [RULES.NOP] * before + words
    others = (0xF9400020, 0xF9802020, 0xD61F0000, 0xDAC00000, 0x9AC12000, 0xD4000001, 0xF94006BE, 0x14000001, 0x54000000)
    for _ in range(source.randrange(4)):
        words[source.randrange(count)] = source.choice(others)
    return code_of(*words)


def some_file(source):
    """The bytes of a file: code, or what isn't."""
    kind = source.random()
    if kind < 0.6:
        return some_words(source)
    if kind < 0.7:
        return b"\x7fELF" + some_words(source)
    if kind < 0.8:
        return some_image(source)
    return some_text(source) if kind < 0.9 else source.choice((b"", b"\x7fELF\x02", some_words(source) + bytes(source.randrange(1, 4))))


class Differs(Exception):
    """What came, and what was wanted."""


def require(came, wanted, what):
    if came != wanted:
        raise Differs(f"{what}: {came!r}, and not {wanted!r}")


class Lines:
    """The lines of an output, taken one after another."""

    def __init__(self, text):
        self.left = text.split("\n")

    def take(self, wanted, what):
        require(self.left.pop(0) if self.left else None, wanted, what)

    def block(self):
        """The lines down to the mend of a word at fault, with its instructions."""
        size = next((at for at, line in enumerate(self.left) if line.startswith("  mend: ")), len(self.left) - 1) + 1
        while size < len(self.left) and self.left[size].startswith("    "):
            size += 1
        taken, self.left = self.left[:size], self.left[size:]
        return taken


def shown_places(words, place, profile):
    """The places of the words that are shown for rule 10: that of the word which opened the need, and that of the word at fault."""
    need, opener = None, place
    # No need stays open for so long.
    for k in range(max(0, place - 12), place + 1):
        instruction = RULES.decode(words[k], profile)
        waits = need and need[1] > 1 and RULES.is_calm(instruction)
        kept, after = RULES.after(instruction, need, profile)
        if k == place and not kept:
            break
        opener = k if after and not waits else opener
        need = after
    return sorted({opener, place})


class Refusal:
    """What is told of a word at fault: the first line says which, the others are taken from the text."""

    def __init__(self, lines, words, place, rule, profile, module, prefix=""):
        lines.take(f"{prefix}word {place} rule {rule}", "the word at fault")
        block = lines.block()
        at = base(module) + FIRST_WORD
        located = [it for it in (re.fullmatch(r"  0x([0-9a-f]{16})  ([0-9a-f]{8})  (.+)", line) for line in block) if it]
        places = [(int(it[1], 16) - at) // 4 for it in located]
        shown = shown_places(words, place, profile) if rule == 10 else [place]
        require(places, shown, "the words that are shown")
        require([int(it[2], 16) for it in located], [words[it] for it in places], "the values of the words that are shown")
        if rule == 4:
            written = {number for number, _ in RULES.writes(RULES.decode(words[place], profile))}
            require(block[1].rpartition("; ")[2], f"this one writes x{min(written & set(RULES.ADDRESSES))}", "the first register that is guarded")
        self.explanation = "\n".join([f"word {place} rule {rule}", *block])
        self.mend = mend_of(block)
        self.members = {"word": place, "rule": rule}

    def told(self):
        return {"explanation": self.explanation, "mend": self.mend}


def mend_of(block):
    """The instructions in the place of a word, or None."""
    at = next((at for at, line in enumerate(block) if line.startswith("  mend: ")), None)
    require(at is None, False, f"a mend in {block}")
    told = block[at].removeprefix("  mend: ")
    put = re.match(r"put (ldr xzr, \[sp\]|add x30, x21, w30, uxtw) right after", told)
    if put:
        return [put[1]]
    return [line.removeprefix("    ") for line in block[at + 1 :]] if told.startswith(("in its place", "nothing in its place")) else None


RUNS = (
    r"halt (?P<halt>\d) at (?P<address>0x[0-9a-f]{16}) after (?P<steps>\d+) steps\n",
    r"halt (?P<halt>\d)(?: status (?P<status>\d+))? after (?P<steps>\d+) steps\n",
    r"image refused, fault (?P<fault>\d), word (?P<word>\d+) rule (?P<rule>\d+)\n",
    r"image refused, fault (?P<fault>\d)\n  (?P<reason>.+)\n",
)


def object_of_run(text):
    """The object in place of what is told of a run, or None."""
    found = next((it for it in (re.fullmatch(pattern, text) for pattern in RUNS) if it), None)
    told = {name: value for name, value in found.groupdict().items() if value is not None} if found else None
    return told and {name: value if name in ("address", "reason") else int(value) for name, value in told.items()}


def difference_of_run(program, folder, words, done):
    """How a run's object differs from what was told in words."""
    came, wanted = run(program, folder, *words, "--format", "json"), object_of_run(done.stderr)
    if wanted is None or (came.stdout, came.returncode) != (done.stdout, done.returncode) or json.loads(came.stderr) != wanted:
        return f"{came}, and not {wanted}, as {done}"
    return None


def value_of(words, name, default):
    """What stands behind an option, or what is so by default."""
    return words[words.index(name) + 1] if name in words else default


class Mode:
    """Draws a case, and says how what came of it differs from what is told elsewhere."""

    def difference(self, program, case):
        try:
            with tempfile.TemporaryDirectory() as folder:
                self.compare(program, folder, case)
        except Differs as differs:
            return str(differs)
        return None

    def smaller(self, case):
        """Cases of fewer files."""
        yield from (case[:1] + [files] for files in fewer(case[1]))


def fewer(files):
    """Lists of files with one left out, or one shorter."""
    yield from (files[:at] + files[at + 1 :] for at in range(len(files)) if len(files) > 1)
    for at, (name, data) in enumerate(files):
        for step in (len(data or b"") // 2 // 4 * 4, 4):
            if 0 < step < len(data or b""):
                yield files[:at] + [(name, data[:-step])] + files[at + 1 :]
                yield files[:at] + [(name, data[step:])] + files[at + 1 :]


def put(folder, files):
    """Writes the files, but for those that aren't there; the words that name them."""
    pathlib.Path(folder, "sub").mkdir(exist_ok=True)
    for name, data in files:
        if data is not None:
            pathlib.Path(folder, name).write_bytes(data)
    return ["--", *(name for name, _ in files)]


# HELP: lawful, N words The N words are a lawful module (status 0). word K rule R Word K, counted from 0, is the first that breaks a rule,
#   and R is the least rule that it breaks (status 1). bad length The file is empty, no multiple of 4 bytes, or above 16,777,216 bytes (status
#   1).
# HELP: Where several files are named, the path of each and a colon stand before its line. The status is the worst of theirs, the largest
#   number.
# HELP: With --all, all of these lines for each word that breaks a rule, in order, and then:
class Checks(Mode):
    """Files for `check`, in words and as an object."""

    def draw(self, source):
        names = source.sample(NAMES, source.choice((1, 1, 2, 3)))
        words = [*source.choice(((), ("--explain",), ("--all",), ("--explain", "--all"))), *source.choice(((), ("--profile", "1"), ("--profile", "2")))]
        return [words, [(name, some_file(source) if source.random() < 0.95 else None) for name in names]]

    def compare(self, program, folder, case):
        words, files = case
        named = put(folder, files)
        profile = 2 if words[-1:] == ["2"] else 1
        text, told = run(program, folder, "check", *words, *named), run(program, folder, "check", "--format", "json", *words, *named)
        lines, errors = Lines(text.stdout), []
        objects = [self.object_of(lines, words, profile, file, f"{file[0]}: " if len(files) > 1 else "", errors) for file in files]
        require(lines.left, [""], "what follows the last file")
        statuses = [3 if "error" in it else 0 if it["verdict"] == "lawful" else 1 for it in objects]
        require((text.stderr, text.returncode), ("".join(f"lfiload: {it}\n" for it in errors), max(statuses)), "the errors and the status")
        require((json.loads(told.stdout), told.stderr, told.returncode), ({"files": objects}, text.stderr, max(statuses)), "the object")
        require(list(json.loads(told.stdout)["files"][0]), list(objects[0]), "the order of its members")

    def object_of(self, lines, words, profile, file, prefix, errors):
        """The object of a file, whose lines are taken."""
        name, data = file
        if data is None:
            errors.append(f"cannot read {name}\n  No such file or directory")
            return {"path": name, "error": errors[-1]}
        found = {"path": name, "profile": profile}
        if not data or len(data) % 4:
            lines.take(f"{prefix}bad length", "a bad length")
            errors.append(bad_length(name, data))
            return found | {"verdict": "bad length", "bytes": len(data)} | self.hint(lines, words, data)
        faults = RULES.faults(words_of(data), profile)
        if not faults:
            lines.take(f"{prefix}lawful, {len(data) // 4} words", "a lawful file")
            return found | {"verdict": "lawful", "words": len(data) // 4}
        found |= {"verdict": "refused", "word": faults[0][0], "rule": faults[0][1]}
        if not words or words[0] == "--profile":
            lines.take(f"{prefix}word {faults[0][0]} rule {faults[0][1]}", "the word at fault")
            return found | self.hint(lines, words, data)
        shown = faults if "--all" in words else faults[:1]
        refusals = [Refusal(lines, words_of(data), *fault, profile, 0, "" if number else prefix) for number, fault in enumerate(shown)]
        if "--all" not in words:
            return found | refusals[0].told() | self.hint(lines, words, data)
        mends = sum(it.mend is not None for it in refusals)
        lines.take(f"words refused: {len(faults)}", "how many are refused")
        lines.take(f"words with a mend: {mends}", "how many have a mend")
        every = {"refused": [it.members | it.told() for it in refusals], "words_refused": len(faults), "words_with_a_mend": mends}
        return found | every | self.hint(lines, words, data)

    def hint(self, lines, words, data):
        """What such a file is, if it is another kind's; its line stands there where faults are explained."""
        kind = kind_of(data)
        if kind and ("--explain" in words or "--all" in words):
            lines.take(f"  file: {HINTS[kind]}", "the kind of the file")
        return {"file": HINTS[kind]} if kind else {}


def across_pages(source):
    """A stream of a module in which one of the last words of a page may ask something of the first of the next."""
    large = source.random() < 0.5
    opens, meets = source.choice(RULES.MEETING), source.choice((*RULES.MEETING, RULES.NOP, 0xD4000001))
    between, early = source.randrange(5), source.randrange(4)
    before, after = (4095 if large else 1023) - early, source.randrange(4)
    code = code_of(*[RULES.NOP] * before, opens, *[RULES.NOP] * between, meets, *[RULES.NOP] * after)
    return stream(source.randrange(MODULES), code, 2 if large else source.choice((1, 2)), large)


# HELP: Prints a line for each module that was opened, one for a connection's fault, and the strays: module M: complete, N words All its
#   words came, and they are lawful. module M: refused, word K rule R Its first fault. module M: incomplete, P of Q pages It was closed when
#   only P pages had come. module M: lost, fault F Its connection came to fault F while it was open. module M: page fault, index I Page I
#   wasn't the one due, or hadn't its length.
# HELP: Each stream is a connection, numbered from 0 in the order in which they are named.
class Loads(Mode):
    """Streams for `load --explain`, in words and as an object, whose modules no two of them open."""

    def draw(self, source):
        kinds = (some_text, some_text, some_text, across_pages, some_file)
        texts = [source.choice(kinds)(source) for _ in range(source.choice((1, 1, 2, 3)))]
        return [[], [(f"s {number}", text) for number, text in enumerate(texts)]]

    def compare(self, program, folder, case):
        files = case[1]
        named, texts = put(folder, files), [text for _, text in files]
        told, wanted = run(program, folder, "load", "--explain", *named).stdout, reports(texts)
        if len(wanted) > 1:
            return
        require(told[: len(wanted[0][0])], wanted[0][0], "the report")
        lines = Lines(told.removeprefix(wanted[0][0]))
        objects = self.modules_of(lines, texts), self.connections_of(lines, files)
        require(lines.left, [""], "what follows the last connection")
        for module, share in shares_of(texts).items():
            if "rule" in objects[0][module] and len(share[1].pages) * share[1].size >= 4 * share[1].words:
                require(objects[0][module]["explanation"], as_checked(program, folder, share[1], module), "the explanation, beside that of `check`")
        images = [{"path": f"./{name}"} for name in sorted(wanted[0][1])]
        strays = sum(it["strays"] for it in objects[1])
        came = run(program, folder, "load", "--explain", "--format", "json", "--out", ".", *named)
        whole = {"modules": objects[0], "connections": objects[1], "strays": strays, "images": images}
        require((json.loads(came.stdout), came.returncode), (whole, wanted[0][2]), "the object")
        require([list(it) for it in json.loads(came.stdout)["connections"]], [list(it) for it in objects[1]], "the order of its members")

    def modules_of(self, lines, texts):
        """The objects of the modules, whose lines are taken."""
        shares = shares_of(texts)
        found = [{"module": module, "outcome": "unused"} for module in range(MODULES)]
        for module in sorted(shares):
            number, share = shares[module]
            found[module] = {"module": module} | outcome_members(share)
            if "rule" in found[module]:
                code = words_of(b"".join(share.pages))
                fault = found[module]["word"], found[module]["rule"]
                found[module] |= Refusal(lines, code, *fault, share.profile, module, f"module {module}: ").told()
        for module in sorted(shares):
            lines.take(f"module {module}: from connection {shares[module][0]}", "where a module is from")
            found[module]["connection"] = shares[module][0]
        return found

    def connections_of(self, lines, files):
        """The objects of the connections, whose lines are taken."""
        found = []
        for number, (name, text) in enumerate(files):
            _, fault, strays = connection(text, range(MODULES))
            found.append({"connection": number, "path": name, "strays": strays})
            if fault:
                lines.take(f"connection {number}: {STREAM_FAULTS[fault]}", "a fault")
                lines.take(f"  message at byte {fault_byte(text)} of {name}", "where it is")
                found[-1] |= {"fault": fault, "reason": STREAM_FAULTS[fault], "byte": fault_byte(text)}
                if fault < 8 and fault_byte(text) == 0 and kind_of(text) != "stream":
                    lines.take(f"  file: {HINTS[kind_of(text)]}", "what begins so")
                    found[-1]["file"] = HINTS[kind_of(text)]
            if strays:
                lines.take(f"connection {number}: strays {strays}", "its strays")
        return found


def shares_of(texts):
    """By their modules: the connection that brings one, and what it brings."""
    return {module: (number, share) for number, text in enumerate(texts) for module, share in connection(text, range(MODULES))[0].items()}


# COMMANDS: A code file names no module, so its words have the addresses of module 0; a loaded module's have those of its slot.
def as_checked(program, folder, share, module):
    """What `check --explain` tells of a module's code, at the addresses of its slot."""
    pathlib.Path(folder, "checked.code").write_bytes(b"".join(share.pages))
    told = run(program, folder, "check", "--explain", "--profile", str(share.profile), "checked.code").stdout
    moved = re.sub(r"^  0x([0-9a-f]{16})(?=  )", lambda it: f"  0x{int(it[1], 16) - base(0) + base(module):016x}", told, flags=re.M)
    return re.sub(r"^  file: .*\n", "", moved, flags=re.M).removesuffix("\n")


# HELP: A connection that has not come by then has no messages (status 3), and one that is open ends where it is, as if its client had
#   closed it (status 1 or 3, also where its modules are complete).
class Serves(Mode):
    """The same streams from clients of `serve`, who come one after another: it tells what `load` does, but for their paths."""

    def draw(self, source):
        return [source.choice(([], ["--explain"])), Loads().draw(source)[1]]

    def compare(self, program, folder, case):
        explain, texts = case[0], [text for _, text in case[1]]
        if len(reports(texts)) > 1:
            return
        named = put(folder, case[1])
        loaded = run(program, folder, "load", "--explain", *named)
        served = serve(program, folder, texts, "--explain")
        words = re.sub(r"^(  message at byte \d+) of .*", r"\1", loaded.stdout, flags=re.M)
        require(served[0::2], (words, loaded.returncode), "what is told")
        require(sorted(served[1].splitlines()), sorted(set(served[1].splitlines())), "its notices")
        wanted = json.loads(run(program, folder, "load", "--format", "json", *explain, "--out", ".", *named).stdout)
        for it in wanted["connections"]:
            del it["path"]
            it["client"] = "heard"
        out, _, status = serve(program, folder, texts, "--format", "json", *explain, "--out", ".")
        require((json.loads(out), status), (wanted, loaded.returncode), "the object")


def serve(program, folder, texts, *words):
    """What `serve` tells of these clients, on the output and on the errors, and its status."""
    path = pathlib.Path(folder, "socket")
    serving = subprocess.Popen([program, "serve", "--socket", path, "--connections", str(len(texts)), *words], cwd=folder, text=True,
                               stdin=subprocess.DEVNULL, stdout=subprocess.PIPE, stderr=subprocess.PIPE)
    for text in texts:
        with connected(str(path)) as client, contextlib.suppress(BrokenPipeError, ConnectionResetError):
            client.sendall(text)
    return *serving.communicate(timeout=60), serving.returncode


def fault_byte(text):
    """Where the message begins that has a stream's fault or isn't whole; its end where all are."""
    return sum(12 + len(payload) for *_, payload in cut(text)[0] if payload is not None)


def outcome_members(share):
    """What is told of a module as members of its object."""
    told, _ = outcome(share)
    kind, numbers = told.partition(",")[0], [int(it) for it in re.findall(r"\d+", told)]
    names = {"complete": ("words",), "refused": ("word", "rule"), "incomplete": ("pages", "of"), "lost": ("fault",), "page fault": ("index",)}
    return {"outcome": kind} | dict(zip(names[kind], numbers))


# HELP: Each is read whole, unless it is too long.
class Infos(Mode):
    """Files for `info`."""

    def draw(self, source):
        names = source.sample(NAMES, source.choice((1, 1, 2)))
        drawn = (some_text, some_image, some_file)
        return [[], [(name, source.choice(drawn)(source)) for name in names]]

    def compare(self, program, folder, case):
        files = case[1]
        told = run(program, folder, "info", *put(folder, files))
        wanted, well = [], True
        for name, data in files:
            lines, is_well = info_of(data)
            wanted += [(f"{name}: " if len(files) > 1 else "") + lines[0], *lines[1:]]
            well = well and is_well
        require((told.stdout.splitlines(), told.stderr, told.returncode), (wanted, "", 0 if well else 1), "what is told")


def info_of(data):
    """The lines on a file, and whether it is well."""
    kind = kind_of(data)
    if kind == "elf":
        return [HINTS["elf"]], False
    if kind == "image":
        return image_info(data)
    if kind == "stream":
        return stream_info(data)
    if not data or len(data) % 4:
        return [f"no code, {len(data)} bytes"], False
    return [f"code, {len(data) // 4} words"], True


def image_info(data):
    number, more = image_fault(data)
    if number:
        return [f"image refused, fault {number}{more}"] + ([] if number == 7 else [f"  {IMAGE_FAULTS[number]}"]), False
    _, count, entry, profile, at = struct.unpack_from("<4sIIIQ", data)
    return ["image", f"  slot {(at >> 32) // 2}", f"  base 0x{at:016x}", f"  words {count}", f"  entry {entry}", f"  profile {profile}", "  lawful"], True


def stream_info(data):
    lines, at = ["stream"], 0
    found, fault, inside = cut(data)
    for kind, second, module, a, b, payload in found:
        if payload is None:
            break
        if kind in PROFILES:
            told = f"open, {a} words, entry {b}, profile {PROFILES[kind]}, {'large' if OPENED[second] == 5 else 'small'} pages"
        else:
            told = f"page {a}, {b} bytes" if kind in SIZES else "close"
        lines.append(f"  byte {at}: module {module} {told}")
        at += 12 + len(payload)
    number = fault or (9 if inside else None)
    return lines + ([f"  byte {at}: fault {number}, {STREAM_FAULTS[number]}"] if number else []), number is None


# HELP: Writes a stream to the standard output, as load and serve read it: of each file an Open, its pages and a Close. The first file is
#   module M, the next M + 1, and so on, up to 15.
class Packs(Mode):
    """Files for `pack`."""

    DEFAULTS = {"--module": "0", "--entry": "0", "--profile": "1", "--pages": "small"}  # as --help has them

    def draw(self, source):
        names = source.sample(NAMES, source.choice((1, 1, 2, 3)))
        profile, module, entry = source.choice((1, 2)), source.choice((0, 1, 12, 13, 14, 15)), source.choice((0, 0, 1, 2))
        large = profile == 2 and source.random() < 0.5
        asked = {"--module": str(module), "--entry": str(entry), "--profile": str(profile), "--pages": "large" if large else "small"}
        # Of what is so by default a third isn't said.
        words = [word for it in asked.items() if it not in self.DEFAULTS.items() or source.random() < 2 / 3 for word in it]
        counts = (1, 3, 1024, 1025, 4096, 4097)
        return [words, [(name, some_code(source, source.choice(counts)) if source.random() < 0.8 else some_file(source)) for name in names]]

    def compare(self, program, folder, case):
        words, files = case
        first, entry, profile = (int(value_of(words, name, self.DEFAULTS[name])) for name in ("--module", "--entry", "--profile"))
        large = value_of(words, "--pages", "small") == "large"
        came = subprocess.run([program, "pack", *words, *put(folder, files)], cwd=folder, stdin=subprocess.DEVNULL, capture_output=True, timeout=60)
        told, status = pack_errors(files, first, entry)
        wanted = b"" if status else b"".join(stream(first + at, code, profile, large, entry) for at, (_, code) in enumerate(files))
        require((came.stdout, came.stderr.decode(), came.returncode), (wanted, told, status), "the stream")


def pack_errors(files, first, entry):
    """What `pack` tells, and its status."""
    if first + len(files) > MODULES:
        return "lfiload: more files than modules, of which the last is 15\n", 2
    for name, data in files:
        if not data or len(data) % 4:
            return f"lfiload: {bad_length(name, data)}\n", 1
        if entry >= len(data) // 4:
            return f"lfiload: no word {entry} in {name}\n", 1
    return "".join(f"lfiload: {name}: {HINTS[kind_of(data)]}\n" for name, data in files if kind_of(data)), 0


# HELP: Writes the code of an image to the standard output, so that it can be disassembled: the 4 bytes of each of its words, and nothing
#   else (status 0). The image is read as `run` reads it, and its code judged anew.
class Unpacks(Mode):
    """Images for `unpack`."""

    def draw(self, source):
        return [[], [(source.choice(NAMES), some_image(source))]]

    def compare(self, program, folder, case):
        [(_, data)] = case[1]
        came = subprocess.run([program, "unpack", *put(folder, case[1])], cwd=folder, stdin=subprocess.DEVNULL, capture_output=True, timeout=60)
        lines, well = image_info(data)
        require((came.stdout, came.stderr.decode().splitlines(), came.returncode), (data[24:], [], 0) if well else (b"", lines, 1), "the code")


def asked_by(instruction, profile):
    """What an instruction asks of what follows it (docs/PROFILE.md, "Rule 10: NeedMet")."""
    asked = {"Call": "blr x30", "Guard": "add x30, x21, w30, uxtw", "Probe": "a load or store at [sp]"}[RULES.opens(instruction)]
    among = "one of the next 4" if RULES.opens(instruction) == "Probe" and profile == 2 else "next"
    return f"{among} is {asked}"


# HELP: PLACE 0xADDRESS WORD TEXT Its place, counted from 0; its address where the module lies in slot 0; its value in hexadecimal digits;
#   its assembly text.
# HELP: -> word K Where a direct branch goes. -> outside, word K The same; the code has no word K.
# HELP: A word that no instruction of the profile spells stands as `.inst`.
class Listings(Mode):
    """Files for `disassemble`."""

    def draw(self, source):
        words = [*source.choice(((), ("--check",))), *source.choice(((), ("--profile", "1"), ("--profile", "2")))]
        return [words, [(source.choice(NAMES), some_file(source))]]

    def compare(self, program, folder, case):
        words, [(name, data)] = case
        profile, named = int(value_of(words, "--profile", "1")), put(folder, case[1])
        came = run(program, folder, "disassemble", *words, *named)
        if not data or len(data) % 4:
            told = f"lfiload: {bad_length(name, data)}\n"
            require((came.stdout, came.stderr, came.returncode), ("bad length\n", told, 1), "a bad length")
            return
        told = f"lfiload: {name}: {HINTS[kind_of(data)]}\n" if kind_of(data) else ""
        require((came.stderr, came.returncode), (told, 0), "the errors and the status")
        rules = dict(RULES.faults(words_of(data), profile)) if "--check" in words else {}
        lines = came.stdout.splitlines()
        require(len(lines), len(data) // 4, "how many lines")
        for place, (word, line) in enumerate(zip(words_of(data), lines)):
            instruction = RULES.decode(word, profile)
            opened = f"  ; opens: {asked_by(instruction, profile)}" if instruction and RULES.opens(instruction) else ""
            self.compare_line(line, (place, word), instruction, len(lines), opened, rules.get(place))

    def compare_line(self, line, at, instruction, count, opened, rule):
        """A line: its numbers, where a branch goes, what it opens, and its rule."""
        place, word = at
        start = f"{place:7}  0x{base(0) + FIRST_WORD + 4 * place:016x}  {word:08x}  "
        require(line[: len(start)], start, "the beginning of a line")
        text = line[len(start) :]
        require(text.startswith(".inst "), instruction is None, f"a text of {line!r}")
        ends = []
        if instruction and instruction.name in RULES.DIRECT:
            target = place + instruction.signed("imm")
            ends.append(f"  -> word {target}" if 0 <= target < count else f"  -> outside, word {target}")
        if opened:
            ends.append(opened)
        require("; opens: " in text, bool(opened), f"what {line!r} opens")
        if rule:
            ends.append(f"  ; rule {rule}")
        require("; rule " in text, bool(rule), f"the rule of {line!r}")
        require("->" in text, any("->" in it for it in ends), f"the arrow of {line!r}")
        require([it for it in ends if it not in text], [], f"the ends of {line!r}")


MODES = {"checks": Checks(), "loads": Loads(), "serves": Serves(), "infos": Infos(), "packs": Packs(), "unpacks": Unpacks(), "listings": Listings()}
