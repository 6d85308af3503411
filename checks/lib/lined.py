"""What `--help` says of each command and of each of its arguments and options, in a line, and runs that show it: for checks/program.

Ranges and defaults are compared by lib/options.py; how many verifiers there are is counted by checks/refused_growth.
"""

import os
import pathlib
import re
import subprocess
import tempfile
import threading
from typing import NamedTuple

from lib import formats, numbered, tree
from lib.serving import connected

ABOUT, HELP = "Verifies and loads modules of sandboxed code", "Print help"
NOP, RET, LOAD, ACQUIRE = (formats.code_of(word) for word in (0xD503201F, 0xD65F03C0, 0xF9400020, 0x88DFFE40))
FILES = {
    "ret.code": RET, "two.code": NOP + RET, "acquire.code": ACQUIRE, "faults.code": LOAD + LOAD + RET, "short.code": RET[::-1],
    "zero.stream": formats.stream(0, RET), "one.stream": formats.stream(1, RET), "faults.stream": formats.stream(2, LOAD + RET),
    "nops.img": formats.image(0, 0, NOP * 9),
}
SERVE = ("serve", "--socket", "s", "--connections", "1")


class Line(NamedTuple):
    name: str  # of an argument or option; empty: of the command itself
    text: str
    words: tuple  # of a run that shows it
    shows: object  # bytes that this run prints; or the path of a file that it writes, or, behind `no `, that isn't there then
    beside: tuple = ()  # those of a run that doesn't show it, where there are some


PROFILE = "the profile that the code goes by, 1 or 2; 1 by default"
FORMAT = "text, or json for one JSON object; text by default"
VERIFIERS = "how many verifiers judge pages, 1 to 8; 2 by default"
OUT = "the folder for the images of complete modules; it has to exist"
TELLS = "also explain each refused module's first fault, and tell of connections"
IMAGE = "the file of an image, as load --out writes it"
FAULTS, ZERO = ("load", "faults.stream"), ("load", "zero.stream")
LINES = {
    "check": (
        Line("", "Tells whether the code in files is lawful", ("check", "ret.code"), b"lawful, 1 words\n", ("check", "faults.code")),
        Line("<FILE>...", "one file or more, each with plain code words, the lowest byte first", ("check", "ret.code", "two.code"), b"two.code: lawful, 2 words\n", ("check", "short.code")),
        Line("--explain", "also say what the word at fault does, what its rule asks, and how it is mended", ("check", "--explain", "faults.code"),
             b"word 0 rule 2\n  0x0000000100010000  f9400020  ldr x0, [x1]\n  a load or store may go only through", ("check", "--all", "ret.code")),
        Line("--all", "say so of each word that breaks a rule, and how many they are", ("check", "--all", "faults.code"), b"words refused: 2\n", ("check", "--explain", "faults.code")),
        Line("--profile <P>", PROFILE, ("check", "--profile", "2", "acquire.code"), b"lawful", ("check", "--profile", "1", "acquire.code")),
        Line("--format <F>", FORMAT, ("check", "--format", "json", "ret.code"), b'{"files":[', ("check", "--format", "text", "ret.code")),
    ),
    "load": (
        Line("", "Loads the modules of streams, and prints the report", ZERO, b"module 0: complete, 1 words\nstrays 0\n", FAULTS),
        Line("<STREAM>...", "1 to 8 files, each with one connection's bytes", (*ZERO, "one.stream"), b"module 1: complete, 1 words\n", ZERO),
        Line("--verifiers <V>", VERIFIERS, (*ZERO, "--verifiers", "8"), b"module 0: complete"),
        Line("--out <DIR>", OUT, (*ZERO, "--out", "images"), "images/module-00.img", (*FAULTS, "--out", "images")),
        Line("--explain", TELLS, (*FAULTS, "--explain"), b"strays 0\nmodule 2: word 0 rule 2\n  0x0000000500010000  f9400020  ldr x0, [x1]\n  a load or store may go only through", FAULTS),
        Line("--format <F>", FORMAT, (*ZERO, "--format", "json"), b'{"modules":[', ZERO),
    ),
    "serve": (
        Line("", "Loads the modules of streams that come over a Unix socket, and prints the report", SERVE, b"module 0: complete, 1 words\nstrays 0\n"),
        Line("--socket <P>", "the path of the Unix socket; it is removed after the last connection", SERVE, "no s"),
        Line("--connections <C>", "how many connections are taken, 1 to 8", (*SERVE[:-1], "2"), b"module 1: complete, 1 words\n", SERVE),
        Line("--verifiers <V>", VERIFIERS, (*SERVE, "--verifiers", "8"), b"module 0: complete"),
        Line("--seconds <N>", "for how many seconds it serves at most, 1 to 86400; no limit by default", (*SERVE[:-1], "3", "--seconds", "1"), b"connection 2 had not come\n", SERVE),
        Line("--out <DIR>", OUT, (*SERVE, "--out", "images"), "images/module-00.img", SERVE),
        Line("--explain", TELLS, (*SERVE, "--explain"), b"module 0: from connection 0\n", SERVE),
        Line("--format <F>", FORMAT, (*SERVE, "--format", "json"), b'{"modules":[', SERVE),
    ),
    "run": (
        Line("", "Runs an image in a simulated machine", ("run", "nops.img", "--steps", "20"), b"halt 3 at 0x0000000100010024 after 9 steps\n"),
        Line("<IMAGE>", IMAGE, ("run", "nops.img", "--steps", "0"), b"halt 1", ("run", "ret.code", "--steps", "0")),
        Line("--steps <N>", "how many steps it may take, 0 to 1000000000", ("run", "nops.img", "--steps", "5"), b"halt 1 after 5 steps\n", ("run", "nops.img", "--steps", "6")),
        Line("--format <F>", FORMAT, ("run", "nops.img", "--steps", "5", "--format", "json"), b'{"halt":', ("run", "nops.img", "--steps", "5")),
    ),
    "disassemble": (
        Line("", "Lists the words of a file, each with its place and its text", ("disassemble", "two.code"), b"      1  0x0000000100010004  d65f03c0  ret x30\n", ("check", "two.code")),
        Line("<FILE>", "plain code words, the lowest byte first", ("disassemble", "ret.code"), b"  d65f03c0  ", ("disassemble", "short.code")),
        Line("--check", "also judge the code, and mark each word that breaks a rule", ("disassemble", "--check", "faults.code"), b"ldr x0, [x1]  ; rule 2\n", ("disassemble", "faults.code")),
        Line("--profile <P>", PROFILE, ("disassemble", "--profile", "2", "acquire.code"), b"ldar w0, [x18]", ("disassemble", "--profile", "1", "acquire.code")),
    ),
    "pack": (
        Line("", "Writes a stream of the code in files, a module each", ("pack", "ret.code", "two.code"), formats.stream(0, RET) + formats.stream(1, NOP + RET), ("pack", "ret.code")),
        Line("<CODE>...", "1 to 16 files, each with the plain code words of one module", ("pack", *["ret.code"] * 16), formats.stream(15, RET), ("pack", *["ret.code"] * 15)),
        Line("--module <M>", "the number of the first file's module, 0 to 15; 0 by default", ("pack", "--module", "5", "ret.code"), formats.stream(5, RET), ("pack", "ret.code")),
        Line("--entry <WORD>", "the word at which each module is entered; 0 by default", ("pack", "--entry", "1", "two.code"), formats.stream(0, NOP + RET, entry=1), ("pack", "two.code")),
        Line("--profile <P>", PROFILE, ("pack", "--profile", "2", "ret.code"), formats.stream(0, RET, 2), ("pack", "ret.code")),
        Line("--pages <SIZE>", "small or large, of 4096 or 16384 bytes; small by default", ("pack", "--profile", "2", "--pages", "large", "ret.code"), formats.stream(0, RET, 2, True),
             ("pack", "--profile", "2", "--pages", "small", "ret.code")),
    ),
    "unpack": (
        Line("", "Writes the code of an image", ("unpack", "nops.img"), NOP * 9),
        Line("<IMAGE>", IMAGE, ("unpack", "nops.img"), NOP, ("unpack", "ret.code")),
    ),
    "info": (
        Line("", "Tells what files are, and what they hold", ("info", "nops.img"), b"image\n  slot 0\n  base 0x0000000100000000\n  words 9\n", ("info", "ret.code")),
        Line("<FILE>...", "one file or more: code, streams, images", ("info", "ret.code", "zero.stream", "nops.img"), b"zero.stream: stream\n", ("info", "ret.code", "nops.img")),
    ),
}


def lines_of(text):
    """The lines of a help, by the names of arguments and options; by an empty name what it says first."""
    lists = "".join(re.findall(r"^(?:Arguments|Options):\n((?:  .*\n)+)", text, re.M))
    return {"": text.partition("\n")[0]} | {name: told for name, told in re.findall(r"^ +(?:-\w, )?(\S+(?: <\w+>)?)  +(.*)$", lists, re.M)}


def compare_lines(program, helps):
    """The helps have these lines and no other; the first ones stand in the program's own help, too."""
    whole = tree.help_of(program)
    abouts = dict(re.findall(r"^  (\w+)  +(.*)$", whole.partition("\nCommands:\n")[2].partition("\n\n")[0], re.M))
    if abouts != {command: lines[0].text for command, lines in LINES.items()} or lines_of(whole) != {"": ABOUT, "--help": HELP, "--version": "Print version"}:
        numbered.fail("", f"commands {abouts}, and {lines_of(whole)}")
    for command, lines in LINES.items():
        found, wanted = lines_of(helps[command]), {line.name: line.text for line in lines} | {"--help": HELP}
        if found != wanted:
            numbered.fail(command, f"it has the lines {sorted(set(found.items()) - set(wanted.items()))} in place of {sorted(set(wanted.items()) - set(found.items()))}")


def visit(path, file):
    """A client that sends a file, once it can connect."""
    with connected(path) as client:
        client.sendall(FILES[file])


def shown_by(program, words, shows):
    """Whether a run in a folder with the files shows this, whatever its status is."""
    with tempfile.TemporaryDirectory() as folder:
        for name, content in FILES.items():
            pathlib.Path(folder, name).write_bytes(content)
        os.mkdir(os.path.join(folder, "images"))
        count = min(2, int(words[words.index("--connections") + 1])) if words[0] == "serve" else 0
        clients = [threading.Thread(target=visit, args=(os.path.join(folder, "s"), file)) for file in ("zero.stream", "one.stream")[:count]]
        for client in clients:
            client.start()
        done = subprocess.run([program, *words], cwd=folder, stdin=subprocess.DEVNULL, capture_output=True, timeout=60)
        for client in clients:
            client.join()
        if isinstance(shows, bytes):
            return shows in done.stdout or shows in done.stderr
        return os.path.exists(os.path.join(folder, shows.removeprefix("no "))) != shows.startswith("no ")


def compare(program, helps):
    """Compares all of this."""
    compare_lines(program, helps)
    for command, lines in LINES.items():
        for line in lines:
            for words, wanted in ((line.words, True), (line.beside, False)):
                if words and shown_by(program, words, line.shows) != wanted:
                    numbered.fail(command, f"{line.text!r}: {words} {'does not show' if wanted else 'shows'} {line.shows!r:.200}")
