"""The part of checks/hostile on names: of files, folders and sockets, with any letters in them; and on files that tell more bytes than they have."""

import json
import os
import pathlib
import subprocess
import tempfile

from lib import formats
from lib.cases import RET, run, wrong
from lib.serving import connected

# Names that a file may have as well as any other.
ODD_NAMES = ("s ", " s", "s\t", "s\n", "a b", "s.", ".s", "--", "-s", "ß", "'s'", '"s"', "a\\b", "s:1", "%s", "{}", "*", "S")
# Files that the system makes when they are read: 4,096 bytes by what it tells of them.
MADE = ("/sys/devices/system/cpu/online", "/sys/class/net/lo/address", "/sys/kernel/mm/transparent_hugepage/enabled")


def try_file(program, folder, name):
    """A file of this name is read, and told by it."""
    path, text = os.path.join(folder, name), formats.stream(3, RET)
    for content, command, wanted in (
        (RET, ["check", path], (0, b"lawful, 1 words\n", b"")),
        (RET, ["check", path, path], (0, 2 * f"{path}: lawful, 1 words\n".encode(), b"")),
        (RET, ["pack", "--module", "3", path], (0, text, b"")),
        (formats.image(3, 0, RET), ["unpack", path], (0, RET, b"")),
        (formats.image(3, 0, RET), ["run", path, "--steps", "0"], (0, b"", b"halt 1 after 0 steps\n")),
        (text, ["load", path], (0, b"module 3: complete, 1 words\nstrays 0\n", b"")),
    ):
        pathlib.Path(path).write_bytes(content)
        done = subprocess.run([program, *command], capture_output=True, timeout=60)
        if (done.returncode, done.stdout, done.stderr) != wanted:
            wrong("odd", command, (done.returncode, done.stdout, done.stderr), wanted)


def try_folder(program, folder, name):
    """Images are written to a folder of this name, and told by it; so is a file that isn't there."""
    path, stream = os.path.join(folder, "out", name), os.path.join(folder, "stream")
    os.makedirs(path)
    pathlib.Path(stream).write_bytes(formats.stream(3, RET))
    told = run(program, folder, ["load", "--format", "json", "--out", path, stream])
    images = [it["path"] for it in json.loads(told.stdout)["images"]]
    if images != [f"{path}/module-03.img"] or not pathlib.Path(path, "module-03.img").is_file():
        wrong("odd", f"--out of a folder {name!r}", (told.returncode, told.stdout, told.stderr), f"an image at {path}/module-03.img")
    link = os.path.join(folder, "out", "link" + name)
    os.symlink(name, link)
    told = run(program, folder, ["load", "--out", link, stream])
    if told.returncode or not os.path.islink(link) or not pathlib.Path(link, "module-03.img").is_file():
        wrong("odd", f"--out of a link to a folder {name!r}", (told.returncode, told.stdout, told.stderr), "an image there, and the link")
    missing = run(program, folder, ["check", os.path.join(path, name)]).stderr
    if missing != f"lfiload: cannot read {path}/{name}\n  No such file or directory\n":
        wrong("odd", f"a file {name!r} that isn't there", missing, "its name")


def try_socket(program, folder, name):
    """A socket of this name stands there, and is gone in the end."""
    path = os.path.join(folder, "sockets", name)
    os.mkdir(os.path.dirname(path))
    serving = subprocess.Popen([program, "serve", "--socket", path, "--connections", "1"], stdout=subprocess.PIPE, stderr=subprocess.PIPE, text=True)
    with connected(path) as client:
        client.sendall(formats.stream(0, RET))
    came = *serving.communicate(timeout=60), serving.returncode, os.listdir(os.path.dirname(path))
    wanted = "module 0: complete, 1 words\nstrays 0\n", "", 0, []
    if came != wanted:
        wrong("odd", f"a path that ends with {name!r}", came, wanted)


def try_made(program):
    """A file that tells more bytes than it has is judged by those that it has. How many there are."""
    tried = 0
    for path in MADE:
        if not os.path.exists(path) or os.path.getsize(path) <= len(content := pathlib.Path(path).read_bytes()):
            continue
        named = subprocess.run([program, "check", path], capture_output=True, timeout=60)
        given = subprocess.run([program, "check", "-"], input=content, capture_output=True, timeout=60)
        wanted = given.returncode, given.stdout, given.stderr.replace(b" -\n", f" {path}\n".encode())
        if (named.returncode, named.stdout, named.stderr) != wanted:
            wrong("odd", f"check {path}", (named.returncode, named.stdout, named.stderr), wanted)
        tried += 1
    return tried


# COMMANDS: After a line `lfiload: cannot ..` on the standard error a second line gives the system's reason, if it is known: `  No such
#   file or directory`.
def try_unnamed(program, folder):
    """An empty word names no file, whatever the standard input holds."""
    for command in "check", "check --all", "disassemble", "info", "load", "pack", "unpack", "run --steps 1":
        done = subprocess.run([program, *command.split(), ""], input=RET, capture_output=True, timeout=60, cwd=folder)
        wanted = 3, b"", b"lfiload: cannot read \n  No such file or directory\n"
        if (done.returncode, done.stdout, done.stderr) != wanted:
            wrong("odd", f"{command} of an empty word", (done.returncode, done.stdout, done.stderr), wanted)
    for words, said in (("load", "--out", "", "none"), "--out names no folder"), (("serve", "--connections", "1", "--socket", ""), "--socket names no path"):
        done = run(program, folder, words)
        if (done.returncode, done.stdout, said in done.stderr) != (2, "", True):
            wrong("odd", words, (done.returncode, done.stdout, done.stderr), (2, "", said))


def try_odd(program):
    with tempfile.TemporaryDirectory() as folder:
        try_unnamed(program, folder)
    for name in ODD_NAMES:
        with tempfile.TemporaryDirectory() as folder:
            for part in try_file, try_folder, try_socket:
                part(program, folder, name)
    print(f"odd: {len(ODD_NAMES)} names of files, folders and sockets, {try_made(program)} files that tell more bytes than they have")
