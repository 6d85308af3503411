"""What docs/COMMANDS.md and docs/PROFILE.md say in sentences, beside runs: for checks/program."""

import os
import pathlib
import re
import resource
import signal
import subprocess
import sys
import tempfile
import threading
import time

from lib import formats, numbered, tree
from lib.serving import connected

DOCUMENTS = tree.TOP / "docs"
NOP, RET, SVC = 0xD503201F, 0xD65F03C0, 0xD4000001
FILLED = [NOP] * (formats.PAGE // 4 - 1)
RBIT, CLZ = 0xDAC00020, 0xDAC01000  # rbit x0, x1; clz x0, x0
# Words near a page's end, where what is told of the first fault rests on a word before or behind.
NEAR = {
    "RBIT inside a page": FILLED[1:] + [RBIT, CLZ],
    "a load behind a move of sp": FILLED + [0xD10043FF, 0xF9400020],  # sub sp, sp, #16; ldr x0, [x1]
    "a word behind a load of a table entry": FILLED + [0xF94006BE, NOP],  # ldr x30, [x21, #8]
    "a late probe": FILLED[2:] + [0xD10043FF, NOP, NOP, NOP],
}


class Room:
    """A folder with files of each kind, and the program there."""

    def __init__(self, program, folder):
        self.program, self.folder = program, pathlib.Path(folder)
        code = formats.code_of(RET)
        # ldr x30, [x21, #8]; blr x30: it prints a byte.
        writes = formats.image(0, 0, formats.code_of(0xF94006BE, 0xD63F03C0, 0xD4200000))
        for name, content in {"a.code": code, "bad.code": formats.code_of(SVC), "a.stream": formats.stream(0, code), "a.img": formats.image(0, 0, code),
                              "writes.img": writes}.items():
            (self.folder / name).write_bytes(content)

    def run(self, *words, **more):
        given = {"stdin": subprocess.DEVNULL, "stdout": subprocess.PIPE, "stderr": subprocess.PIPE, "cwd": self.folder, "timeout": 60, **more}
        done = subprocess.run([self.program, *words], **given)
        return done.returncode, done.stdout, done.stderr

    def explained(self, words):
        """What check and load tell of these words, but for what load tells of its streams."""
        code, stream = formats.code_of(*words), formats.stream(0, formats.code_of(*words))
        (self.folder / "it.code").write_bytes(code), (self.folder / "it.stream").write_bytes(stream)
        checked, loaded = (self.run(name, "--explain", f"it.{kind}")[1] for name, kind in (("check", "code"), ("load", "stream")))
        return checked, loaded.partition(b"\nmodule 0: ")[2].partition(b"module 0: from")[0]


def visit(path):
    """A client that sends nothing."""
    with connected(str(path)):
        pass


def closed_pipe(room):
    unread, out = os.pipe()
    os.close(unread)
    client = threading.Thread(target=visit, args=(room.folder / "s",))
    client.start()
    serve = ("serve", "--socket", str(room.folder / "s"), "--connections", "1")
    others = [("check", "a.code"), ("load", "a.stream"), ("disassemble", "a.code"), ("pack", "a.code"), ("unpack", "a.img"), ("info", "a.code"), serve]
    found = {words[0]: room.run(*words, stdout=out)[::2] for words in others}
    client.join()
    found["run"] = room.run("run", "writes.img", "--steps", "9", stdout=out)[::2]
    found["late"] = room.run("serve", "--socket", str(room.folder / "s"), "--connections", "1", "--seconds", "1", "--format", "json", stdout=out)[::2]
    os.close(out)
    late = {"run": (0, b"halt 5 status 255 after 1 steps\n"), "late": (3, b"lfiload: time is over: connection 0 had not come\n")}
    return found == {words[0]: (3, b"") for words in others} | late, found


def looks_of_load(room):
    told = {name: room.explained(words) for name, words in NEAR.items()}
    checked, loaded = room.explained([*FILLED, RBIT, CLZ])
    return all(one == other for one, other in told.values()) and b"mend: in its place" in checked and b"mend: none" in loaded, told


def unread(room):
    given = (["load", "none", "a.stream"], ["run", "none", "--steps", "1"], ["pack", "none", "a.code"], ["unpack", "none"], ["disassemble", "none"],
             ["check", "none", "a.code"], ["info", "none", "a.code"])
    told = {words[0]: room.run(*words) for words in given}
    go_on = [name for name, (_, out, _) in told.items() if out]
    return go_on == ["check", "info"] and all(status == 3 and errors.startswith(b"lfiload: cannot read none\n") for status, _, errors in told.values()), told


def named_once(room):
    (room.folder / "-").write_bytes(formats.code_of(SVC))
    told = [room.run("check", *words, input=formats.code_of(RET), stdin=None)[:2] for words in (("-",), ("./-",), ("-", "-"))]
    return told == [(0, b"lawful, 1 words\n"), (1, b"word 0 rule 1\n"), (2, b"")], told


def limited(room):
    def limit():
        resource.setrlimit(resource.RLIMIT_FSIZE, (8, 8))

    told = room.run("load", "--out", ".", "a.stream", preexec_fn=limit)
    return told[0] == -signal.SIGXFSZ, told


def all_explains(room):
    told = [room.run("check", *words, "bad.code") for words in (("--all",), ("--all", "--explain"))]
    return told[0] == told[1] and b"  mend: " in told[0][1], told


def gone_client(room):
    """A client that goes in the middle; and what becomes of a read that fails, as one of a socket that is reset does."""
    path = str(room.folder / "s")
    with subprocess.Popen([room.program, "serve", "--socket", path, "--connections", "1"], stdout=subprocess.PIPE, cwd=room.folder) as serve:
        with connected(path) as client:
            client.sendall((room.folder / "a.stream").read_bytes()[:-1])
        told = serve.communicate(timeout=60)[0], room.run("load", ".")[1]
    return told == (b"module 0: lost, fault 9\nconnection 0: fault 9\nstrays 0\n", b"connection 0: fault 10\nstrays 0\n"), told


# HELP: A signal ends the program at once and leaves the path; serve can't listen there again before it is removed.
def ended_by_signal(room):
    """`serve` that is waiting for a client when a signal comes."""
    path = room.folder / "signalled"
    with subprocess.Popen([room.program, "serve", "--socket", str(path), "--connections", "1"], stdout=subprocess.PIPE, stderr=subprocess.PIPE) as serve:
        for _ in range(1_000):
            if path.is_socket():
                break
            time.sleep(0.01)
        serve.terminate()
        told = *serve.communicate(timeout=60), serve.returncode, path.is_socket()
    again = room.run("serve", "--socket", str(path), "--connections", "1")
    listens = again[0] == 3 and again[2].startswith(b"lfiload: cannot listen\n")
    return told == (b"", b"", -signal.SIGTERM, True) and listens, (told, again)


def registers_at_start(room):
    found = numbered.start_of(room.program)
    return found == numbered.start_with({18, 21, 23, 24, 30}), found


# LDR, STR X0 at the largest offset and the least, and LDP, STP.
REACHING = (0xF97FFE40, 0xF93FFE40, 0xF8500240, 0xF84FF240, 0xA9600640, 0xA95F8640, 0xA9200640, 0xA91F8640)


def reach(room):
    """The furthest offsets of the words that reach furthest, as they are listed; a pair has two registers of 8 bytes."""
    (room.folder / "it.code").write_bytes(formats.code_of(*REACHING))
    offsets = [int(it) for it in re.findall(rb"#(-?\d+)\]", room.run("disassemble", "it.code")[1])]
    checked = room.run("check", "it.code")
    return (len(offsets), max(offsets), min(offsets), checked[0]) == (8, 32_760, -512, 0), (offsets, checked)


def reserved(_):
    """The options name each register of the table but sp, for which gcc and clang have none."""
    text = (DOCUMENTS / "PROFILE.md").read_text()
    table = text.partition("\n## Registers\n")[2].partition("\nAll other registers")[0]
    held = {int(it) for row in re.findall(r"^\| ([x\d, ]+) \|", table, re.M) for it in re.findall(r"x(\d+)", row)}
    named = {int(it) for it in re.findall(r"-ffixed-x(\d+)", re.search(r"clang takes `(.*?)`", text)[1])}
    return held == named == {18, 21, 22, 23, 24, 30}, (held, named)


COMMANDS = {
    "**A closed pipe**, as in `lfiload info FILE | head`, ends a command but `run` with status 3 and no message (`serve --format json` tells of "
    "late clients).": closed_pipe,
    "`load` tells what `check` does, but of RBIT at a page's end:": looks_of_load,
    "After `cannot read PATH` `load`, `run`, `pack`, `unpack` and `disassemble` do nothing; `check` and `info` go on with the next file.": unread,
    "A file of this name is `./-`, and `-` can be named once.": named_once,
    "A limit on the size of files (`ulimit -f`) ends the program by the signal SIGXFSZ.": limited,
    "`--all` includes `--explain`.": all_explains,
    "A signal ends the program at once and leaves the path: use `--seconds`, or remove it.": ended_by_signal,
    "A client that goes away in the middle is its connection's fault 9, and one that is reset its fault 10;": gone_client,
}
PROFILE = {
    "A host enters it with x18, x21, x23, x24 and x30 at B, sp at B + 2^32 (an empty stack), and 0 in all other registers, where it does as "
    "`lfiload run`.": registers_at_start,
    "An immediate reaches at most 32,760 bytes up and 512 down, and an access has at most 16 bytes, so from a base in the slot, or 512 bytes "
    "beside it, none gets past the guards.": reach,
    "clang takes `-mgeneral-regs-only -mbranch-protection=none -ffixed-x18 -ffixed-x21 -ffixed-x22 -ffixed-x23 -ffixed-x24 -ffixed-x30`": reserved,
}


DOCUMENTED = {"COMMANDS.md": COMMANDS, "PROFILE.md": PROFILE}


def compare(program):
    """Each of these sentences stands there, and runs do what it says. Returns how many they are."""
    count = 0
    for name, sentences in DOCUMENTED.items():
        text = " ".join((DOCUMENTS / name).read_text(encoding="utf-8").split())
        for sentence, tried in sentences.items():
            with tempfile.TemporaryDirectory() as folder:
                is_so, told = tried(Room(program, folder))
            if sentence not in text or not is_so:
                sys.exit(f"program: docs/{name}: {sentence!r} stands there: {sentence in text}; runs: {told!r:.600}")
            count += 1
    return count
