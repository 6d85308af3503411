"""The part of checks/hostile on a clock that fails, and on pauses and interruptions by the system where they matter most."""

import os
import pathlib
import shutil
import socket
import subprocess
import tempfile
import time

from lib import formats
from lib.cases import RET, wrong
from lib.serving import connected

# Entry 1 with `A`; entry 0 with 7.
PRINTS = formats.code_of(0xD2800820, 0xF94006BE, 0xD63F03C0, 0xD28000E0, 0xF94002BE, 0xD63F03C0)
LOADED = "module 0: complete, 1 words\nstrays 0\n", "", 0
# The same of a client that is taken when its time is over: it may be cut off, and what it sent is read.
TAKEN_LATE = LOADED[0], "lfiload: time is over: connection 0 had not ended\n", 1


def compiled(folder):
    """What is to be loaded before the C library; nothing where it can't be compiled."""
    made = os.path.join(folder, "clocks.so")
    words = ["cc", "-O2", "-shared", "-fPIC", "-o", made, pathlib.Path(__file__).with_name("clocks.c")]
    return made if shutil.which("cc") and subprocess.run(words).returncode == 0 else None


def compare(how, running, *wanted):
    try:
        out, err = running.communicate(timeout=20)
    except subprocess.TimeoutExpired:
        running.kill()
        wrong("clocks", how, "no end", wanted)
    if (out, err, running.returncode) not in wanted:
        wrong("clocks", how, (out, err, running.returncode), wanted)


def started(library, how, words, folder):
    loaded = {**os.environ, "LD_PRELOAD": library, "CLOCK": how}
    return subprocess.Popen(words, cwd=folder, stdout=subprocess.PIPE, stderr=subprocess.PIPE, text=True, env=loaded)


def serve_one(program, library, how, delay, folder, *wanted):
    """`serve` for a second, and one client that comes after a delay, sends a module and ends at once."""
    path = os.path.join(folder, how)
    serving = started(library, how, [program, "serve", "--socket", path, "--connections", "1", "--seconds", "1"], folder)
    while serving.poll() is None and not os.path.exists(path):
        time.sleep(0.01)
    time.sleep(delay)
    with connected(path) as client:
        client.sendall(formats.stream(0, RET))
        client.shutdown(socket.SHUT_WR)
        compare(how, serving, *wanted)


def lose_one(program, library, folder):
    """Of two files that aren't there, or have no length of code, the line of the first is lost: that of the second is written all the same."""
    pathlib.Path(folder, "five").write_bytes(bytes(5))
    pathlib.Path(folder, "nine").write_bytes(bytes(9))
    checks = ["check"], ["check", "--format", "json"], ["check", "--explain"], ["check", "--all"]
    unread = "lfiload: cannot read second\n  No such file or directory\n"
    rows = [([*words, "first", "second"], unread) for words in (*checks, ["info"])]
    rows += [([*words, "five", "nine"], "lfiload: bad length nine\n  9 bytes; code has a multiple of 4, from 4 to 16777216\n") for words in checks]
    # A line on the errors and its reason are one write.
    for command, second in rows:
        running = started(library, "lost", [program, *command], folder)
        out, err = running.communicate(timeout=20)
        if (err, running.returncode) != (second, 3):
            wrong("clocks", f"{command}, of which the first line is lost", (out, err, running.returncode), (second, 3))


def keep_other(program, library, folder):
    """Where the system told nothing of the socket, what stands at its path in the end isn't removed."""
    path = pathlib.Path(folder, "untold")
    serving = started(library, "stat", [program, "serve", "--socket", path, "--connections", "1", "--seconds", "1"], folder)
    while serving.poll() is None and not path.exists():
        time.sleep(0.01)
    time.sleep(0.3)
    path.unlink()
    path.write_text("kept")
    compare("stat", serving, ("strays 0\n", "lfiload: time is over: connection 0 had not come\n", 3))
    if not path.exists() or path.read_text() != "kept":
        wrong("clocks", "a file at the path of a socket of which the system told nothing", "is gone", "stays")


def try_clocks(program):
    """Who came or ended in time is told so, however late the thread looks that keeps the time; and where the clock can't be read the time is
    over. Whoever comes is looked for every few milliseconds. A write that is interrupted is tried again."""
    with tempfile.TemporaryDirectory() as folder:
        library = compiled(folder)
        if not library:
            print("clocks: left out, since cc isn't here")
            return
        pathlib.Path(folder, "it.img").write_bytes(formats.image(0, 0, PRINTS))
        compare("write", started(library, "write", [program, "run", "it.img", "--steps", "100"], folder), ("A", "halt 5 status 7 after 5 steps\n", 0))
        words = [program, "serve", "--socket", os.path.join(folder, "s"), "--connections", "1", "--seconds", "30"]
        none = "strays 0\n", "lfiload: time is over: connection 0 had not come\n", 3
        for how in "fails", "later":
            compare(how, started(library, how, words, folder), none)
        refused = "strays 0\n", "lfiload: connection 0: cannot read\n  Permission denied\n", 3
        for how in "block", "over":
            compare(how, started(library, how, [*words[:-1], "1"], folder), refused)
        serve_one(program, library, "look", 0.5, folder, LOADED, TAKEN_LATE)
        serve_one(program, library, "read", 0.2, folder, LOADED)
        serve_one(program, library, "pause", 0.3, folder, (LOADED[0], "a pause\n", 0))
        lose_one(program, library, folder)
        keep_other(program, library, folder)
    print("clocks: one that can't be read, pauses before and after a look and between two, a write that is interrupted, one line that is lost, a socket of which nothing is told")
