"""What `--help` says of a command, and whether the runs that are written down, and its own example, are as it says: for checks/program."""

import itertools
import os
import pathlib
import re
import shlex
import subprocess
import tempfile
import threading
import time

from lib import formats, lined, numbered, tree
from lib.serving import connected

COMMANDS = ("check", "load", "serve", "run", "disassemble", "pack", "unpack", "info")
# What a line's words in capitals stand for; a path may be any text.
PLACES = r"\b[A-Z]{4,}\b|\b[A-Z]\b"
# What is printed only where memory or a client is refused, as checks/refused_growth does.
REFUSED = {"no memory", "not taken", "client_error"}
# The lines that no run of checks/runs prints, with the statuses that the helps of these commands give them.
UNSEEN = {
    (COMMANDS, "lfiload: no memory"): (3,),  # checks/refused_growth refuses memory
    (("load",), "module M: no memory"): (),  # and so here
    (("run",), "halt 7 after N steps"): (3,),  # and here
    # HELP: halt 6 after N steps The runtime answered registers that aren't lawful (status 1).
    (("run",), "halt 6 after N steps"): (1,),  # the program's own runtime answers lawful registers
    (("serve",), "lfiload: connection C: cannot read"): (3,),  # checks/refused_growth has clients that aren't taken, or are reset
    (("load", "serve"), "module M refused"): (),  # a notice, which may come or not
}
NOP, RET, BRK = (formats.code_of(word) for word in (0xD503201F, 0xD65F03C0, 0xD4200000))


# ---- the keys of objects

def texts_of(command, runs):
    """What runs of a command print where an object is asked for, whole or as far as it is compared."""
    where = "err" if command == "run" else "out"
    for run in runs:
        if run.words[:1] == [command.encode()] and b"json" in run.words:
            yield from [*run.holds.get(where, []), getattr(run, where) or b""]


# COMMANDS: **`--format json`.** `--help` has the keys. A later version may add some. Messages stay on standard error.
def compare_keys(helps, runs):
    """The help of a command names each key that is printed, and in quotes no word that isn't. That of serve says what differs from load."""
    for command in "check", "load", "run", "serve":
        quoted = {name: set(re.findall(r'"([a-z_ ]+)"', " ".join(helps[name].partition("With --format json")[2].split()))) for name in COMMANDS}
        named = quoted[command] | (quoted["load"] if command == "serve" else set())
        printed = b"\n".join(texts_of(command, runs)).decode("latin-1")
        keys, values = (set(re.findall(pattern, printed)) for pattern in (r'"([a-z_ ]+)":', r':"([a-z_ ]+)"'))
        untold, unseen = keys - named, quoted[command] - keys - values - REFUSED
        if untold or unseen or not keys:
            numbered.fail(command, f"keys that it doesn't name: {sorted(untold)}, words that no object has: {sorted(unseen)}")


# ---- statuses

def entries(text):
    """The lines that a help says are printed, as patterns and in its words, each with the statuses that it gives. Those that begin with
    `->` or `;` stand at the end of a line."""
    found = []
    for line in re.sub(r"\n {12,}", "  ", text).splitlines():
        entry = re.match(r" {2,}((-> |; )?[a-z]\S.*?\S)(?:  +|$)", line)
        if entry:
            before = ".*  " if entry[2] else ""
            pattern = before + ".+".join(re.escape(part) for part in re.split(PLACES, entry[1])) + "$"
            statuses = re.findall(r"\(status +(\d)(?:,? or (\d)\b[^()]*)?\)", line)
            found.append((re.compile(pattern), entry[1], tuple(sorted(int(it) for both in statuses for it in both if it))))
    return found


def told_lines(run):
    """The lines that a run prints, as far as they are compared, without spaces before them, and without a file's path and colon. None of a
    run whose errors can't be told, nor of a help."""
    if run.err is None or b"--help" in run.words:
        return []
    texts = [run.out or b"", run.err, *run.holds.get("out", []), *run.holds.get("err", [])]
    lines = [line.strip() for line in b"\n".join(texts).decode("latin-1").splitlines()]
    files = [word.decode("latin-1") + ": " for word in run.words]
    return [next((line.removeprefix(it) for it in files if line.startswith(it)), line) for line in lines]


def entries_of(run, common, own):
    """What a run prints, of the lines that the program's help tells, and else of those of its command's help."""
    found = set()
    for line in told_lines(run):
        matching = [[(name, statuses) for pattern, name, statuses in known if pattern.match(line)] for known in (common, own)]
        found |= set(matching[0] or matching[1])
    return found


def compare_command(command, known, common, runs):
    """Those of its runs that print lines to which its help, or the program's, gives statuses have the worst of these. Each line of its help
    is printed by a run, but for those of UNSEEN. Returns how many runs were compared, and what was printed."""
    count, seen = 0, set()
    for run in (it for it in runs if it.words[:1] == [command.encode()]):
        told = entries_of(run, common, known)
        given = [statuses for _, statuses in told if statuses]
        seen |= told
        count += bool(given)
        if given and run.status not in map(max, itertools.product(*given)):
            numbered.fail(command, f"it gives {sorted(told)}, and {run.words} has status {run.status}")
    left = {(name, statuses) for _, name, statuses in known} - seen
    wanted = {(name, statuses) for (commands, name), statuses in UNSEEN.items() if command in commands}
    if left != wanted:
        numbered.fail(command, f"lines that no run prints: {sorted(left - wanted)}, and those of UNSEEN that it doesn't have so: {sorted(wanted - left)}")
    return count, seen


def compare_statuses(program, helps, runs):
    """Each line of a help has the status that it tells, and is printed. Returns how many runs were compared."""
    common = entries(tree.help_of(program).partition("Any command may print")[2])
    compared = [compare_command(command, entries(helps[command]), common, runs) for command in COMMANDS]
    left = {(name, statuses) for _, name, statuses in common} - set().union(*(seen for _, seen in compared))
    if left or not common:
        numbered.fail("", f"lines that no run prints: {sorted(left)}")
    return sum(count for count, _ in compared)


# HELP: The status is 0 where each module is complete and no connection has a fault, 3 where a read failed, else 1.
# What a help says of statuses in a sentence, and a run for each number in it.
STATED = (
    ("load", r"The status is (\d) where each module is complete and no connection has a fault, (\d) where a read failed, else (\d)\.",
        (["a.stream"], ["a.stream", "images"], ["module-00.img"])),
    ("disassemble", r"a line for each word, in order \(status (\d)\)", (["module.code"],)),
    ("pack", r"The code isn't judged: its receiver does that \(status (\d)\)", (["zeros.code"],)),
    ("unpack", r"the 4 bytes of each of its words, and nothing else \(status (\d)\)", (["module-00.img"],)),
    ("unpack", r"Nothing was written \(status (\d), or (\d) for the faults 8 and 9\)", (["module.code"], ["images"])),
)


def compare_sentences(program, helps):
    """The statuses that the helps tell in sentences are those of runs."""
    compare_explain(program, helps)
    with tempfile.TemporaryDirectory() as folder:
        fill(folder)
        for command, sentence, runs in STATED:
            stated = re.search(sentence, " ".join(helps[command].split()))
            found = tuple(str(subprocess.run([program, command, *words], cwd=folder, capture_output=True, timeout=60).returncode) for words in runs)
            if not stated or stated.groups() != found:
                numbered.fail(command, f"it says {stated and stated[0]!r}, and runs have the statuses {found}")


def compare_explain(program, helps):
    """The line of --explain tells of connections where the command does so then; load and serve have the same one."""
    lines = {command: " ".join(re.search(r"--explain (.*)", helps[command])[1].split()) for command in ("check", "load", "serve")}
    with tempfile.TemporaryDirectory() as folder:
        fill(folder)
        for command, file in ("check", "module.code"), ("load", "a.stream"):
            told = subprocess.run([program, command, "--explain", file], cwd=folder, capture_output=True, timeout=60).stdout
            if (b"connection 0" in told) != ("tell of connections" in lines[command]):
                numbered.fail(command, f"its --explain, of which it says {lines[command]!r}, tells {told}")
    if lines["serve"] != lines["load"]:
        numbered.fail("serve", f"its --explain is that of load, and not {lines['serve']!r}")


# ---- operands

# What is in a file, by the words of an operand's text.
KINDS = {"code": (r"\bcode\b", "module.code"), "stream": (r"\bstreams?\b|connection's bytes", "a.stream"), "image": (r"\bimages?\b", "module-00.img")}


def compare_operands(program, helps):
    """A command takes the kinds of files that the text of its operand names, and no other; disassemble and pack take any as code."""
    with tempfile.TemporaryDirectory() as folder:
        fill(folder)
        for command, *words in ("check",), ("load",), ("run", "--steps", "9"), ("unpack",), ("info",):
            about = re.search(r"^Arguments:\n +<\w+>(?:\.\.\.)? +(.*)$", helps[command], re.M)[1]
            named = {kind for kind, (pattern, _) in KINDS.items() if re.search(pattern, about)}
            taken = {kind for kind, (_, file) in KINDS.items()
                     if subprocess.run([program, command, *words, file], cwd=folder, capture_output=True, timeout=60).returncode == 0}
            if named != taken:
                numbered.fail(command, f"its operand is {about!r}, and it takes {sorted(taken)}")


# HELP: Where several open one module, it is loaded from the one whose Open is read first, which may be another in each run; what the others
#   send for it are strays. --explain tells which one it was, and faults in words.
def compare_first(program):
    """Of two streams that open a module the second one is read before the first comes."""
    with tempfile.TemporaryDirectory() as folder:
        paths = [os.path.join(folder, name) for name in ("first", "second")]
        for path in paths:
            os.mkfifo(path)
        running = subprocess.Popen([program, "load", "--explain", *paths], stdout=subprocess.PIPE, stderr=subprocess.PIPE, text=True)
        with open(paths[0], "wb") as first, open(paths[1], "wb") as second:
            second.write(formats.stream(0, RET))
            second.close()
            time.sleep(0.5)
            first.write(formats.stream(0, NOP + RET))
        told = *running.communicate(timeout=60), running.returncode
    wanted = "module 0: complete, 1 words\nstrays 3\nmodule 0: from connection 1\nconnection 0: strays 3\n", "", 0
    if told != wanted:
        numbered.fail("load", f"of two streams that open a module it tells {told}, and not {wanted}")


# ---- examples

def fill(folder):
    """The files that the examples name."""
    files = {"module.code": RET, "zeros.code": bytes(4), "first.code": NOP * 16 + RET, "second.code": NOP * 16 + RET, "module-00.img": formats.image(0, 0, BRK)}
    files |= {f"{name}.stream": formats.stream(module, RET) for module, name in enumerate(("a", "b", "both"))}
    for name, content in files.items():
        pathlib.Path(folder, name).write_bytes(content)
    os.mkdir(os.path.join(folder, "images"))


def visit(path, content):
    """A client that sends these bytes, once it can connect."""
    with connected(path) as client:
        client.sendall(content)


def try_examples(program, helps):
    """The example at the end of each help ends well on files that its words fit."""
    for command, text in helps.items():
        words = shlex.split(re.search(r"^Example: lfiload (.*)$", text, re.M)[1].partition(" > ")[0])
        with tempfile.TemporaryDirectory() as folder:
            fill(folder)
            path = os.path.join(folder, "s")
            words = [path if before == "--socket" else it for before, it in zip(["", *words], words)]
            clients = [threading.Thread(target=visit, args=(path, formats.stream(module, RET))) for module in range(2 if command == "serve" else 0)]
            for client in clients:
                client.start()
            done = subprocess.run([program, *words], cwd=folder, capture_output=True, timeout=60)
            for client in clients:
                client.join()
        if words[0] != command or done.returncode:
            numbered.fail(command, f"its example ends with status {done.returncode}, {done.stdout!r:.200}, {done.stderr!r:.200}")


# ---- how code lies in a file

def compare_order(program, helps):
    """A word lies in a file as the help of check says: the lowest byte first."""
    with tempfile.TemporaryDirectory() as folder:
        for order, content in ("lowest", RET), ("highest", RET[::-1]):
            pathlib.Path(folder, "it.code").write_bytes(content)
            is_lawful = subprocess.run([program, "check", "it.code"], cwd=folder, stdout=subprocess.DEVNULL).returncode == 0
            if is_lawful != (f"the {order} byte first" in " ".join(helps["check"].split())):
                numbered.fail("check", f"code with the {order} byte first is lawful: {is_lawful}")


# ---- mends

def compare_registers(helps):
    """The registers that a mend may change are those that the helps of check and load name, in docs/COMMANDS.md with those that are told
    where they are written."""
    named = [set(re.findall(r"\b[wx]\d+", re.search(r"may overwrite(.*?);", " ".join(helps[name].split()))[1])) for name in ("check", "load")]
    written = re.search(r"They may change (.*?), and, where told, (.*?)\.", (tree.TOP / "docs" / "COMMANDS.md").read_text())
    whole = [set(re.findall(r"\b[wx]\d+", it)) for it in written.groups()]
    if named != [{"w22", "x18", "x30"}] * 2 or whole != [named[0], {"x16", "x17"}]:
        numbered.fail("check", f"mends may change {named}, and by docs/COMMANDS.md {whole}")


def compare(program, runs):
    """Compares all of this. Returns how many runs had a status to be compared."""
    helps = {name: tree.help_of(program, name) for name in COMMANDS}
    lined.compare(program, helps)
    compare_keys(helps, runs)
    compare_order(program, helps)
    compare_registers(helps)
    numbered.compare(program, helps)
    compare_sentences(program, helps)
    compare_operands(program, helps)
    compare_first(program)
    try_examples(program, helps)
    return compare_statuses(program, helps, runs)
