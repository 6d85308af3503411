"""The part of checks/hostile on how the system answers reads and writes: in small pieces, interrupted, or with an error of any kind.
And what comes where there is no memory any more, or a process may have few descriptors."""

import contextlib
import errno
import functools
import itertools
import json
import os
import pathlib
import re
import resource
import select
import shutil
import socket
import subprocess
import tempfile
import time

from lib import formats
from lib.cases import NOP, PRINTS, RET, wrong
from lib.formats import image
from lib.serving import connected

SOURCE = pathlib.Path(__file__).resolve().parent / "answers.c"
CODE = NOP * 20_000 + bytes(4) + RET
FILES = {
    "a.code": NOP * 20_000 + RET, "b.code": CODE, "a.stream": formats.stream(3, NOP * 20_000 + RET) + formats.stream(4, CODE, 2, True),
    "a.img": image(3, 0, NOP * 20_000 + RET),
    "prints.img": image(0, 0, PRINTS),
}
# Each command with what it reads from its standard input, if that is named.
COMMANDS = (
    ("check a.code b.code", None), ("check --all -", "b.code"), ("check --format json --explain b.code", None), ("disassemble -", "a.code"), ("info a.stream a.img", None),
    ("pack a.code b.code", None), ("pack --profile 2 --pages large -", "b.code"), ("unpack a.img", None), ("unpack -", "a.img"), ("run - --steps 30000", "a.img"), ("run prints.img --steps 3000", None),
    ("load --out . --explain a.stream", None), ("load --out . --format json -", "a.stream"),
)
# What is told of an error behind its line, as the system says it; of EPERM what it says of EACCES, and of others nothing.
SAID = {it: os.strerror(it) for it in (
    errno.ENOENT, errno.EACCES, errno.EISDIR, errno.ENOTDIR, errno.ELOOP, errno.ENAMETOOLONG, errno.EROFS, errno.ENOSPC, errno.EDQUOT, errno.EFBIG,
    errno.EPIPE, errno.ECONNRESET, errno.EADDRINUSE,
)} | {errno.EPERM: os.strerror(errno.EACCES)}
# What is told where there is no memory.
UNKEPT = (b"lfiload: no memory", b"image refused, fault 8", b"  there is no memory for it")
IMAGE_UNREAD = [b"image refused, fault 9", b"  a read or a write failed"]
# All errors that there are, and those that are tried with each command. Writes that are interrupted are tried again.
ALL = [number for number in range(1, 134) if number != errno.EINTR]
SOME = (errno.ENOSPC, errno.EDQUOT, errno.EFBIG, errno.EROFS, errno.EACCES, errno.EIO, errno.ENODEV, errno.ESTALE, errno.EBADF, errno.EAGAIN, errno.ETIMEDOUT)


def answered(library, how):
    """The environment of a process to which the system answers so."""
    return {**os.environ, "LD_PRELOAD": library, "ANSWERS": how}


def carried_out(program, folder, library, how, command, source):
    """What comes of a command to which the system answers so: its outputs, its status, and its images."""
    for path in pathlib.Path(folder).glob("module-*.img"):
        path.unlink()
    given = {"env": answered(library, how), "cwd": folder, "capture_output": True, "timeout": 60}
    with open(os.path.join(folder, source) if source else os.devnull, "rb") as file:
        done = subprocess.run([program, *command.split()], stdin=file, **given)
    images = {path.name: path.read_bytes() for path in pathlib.Path(folder).glob("module-*.img")}
    return done.stdout, sorted(done.stderr.splitlines()), done.returncode, images


def without_notice(came):
    """The same without the notice of the refused module, which may come late, or not at all."""
    out, errors, status, images = came
    return out, [line for line in errors if line != b"module 4 refused"], status, images


def try_pieces(program, folder, library):
    """What is read and written in pieces, or interrupted, is as if it were not; but `pack` and what writes images may take an interrupted write for one
    that failed, and tell it."""
    for command, source in COMMANDS:
        plain = carried_out(program, folder, library, "", command, source)
        for how in "short", "interrupted":
            came = carried_out(program, folder, library, how, command, source)
            is_told = how == "interrupted" and command.startswith(("pack", "load")) and came[2] == 3 and any(b"cannot write" in line for line in came[1])
            if without_notice(came) != without_notice(plain) and not is_told:
                wrong("answers", f"{command}, {how}", str(came)[:300], str(plain)[:300])


def reason_of(number):
    """The line behind that of a failure."""
    return [f"  {SAID[number]}".encode()] if number in SAID else []


def try_error(program, folder, library, row, number):
    """A read or write that fails with this error is told."""
    how, command, source, wanted = row
    _, errors, status, _ = without_notice(carried_out(program, folder, library, f"{how} {number}", command, source))
    if (set(errors), status) != (set(wanted), 3):
        wrong("answers", f"{command}, {how} {number}", (errors, status), (wanted, 3))


def try_all_errors(program, folder, library):
    """Each error of a write or a read of some commands, with its reason where it has one. A closed output isn't told, and refused memory is told as that."""
    for number in ALL:
        reason = reason_of(number)
        output = [] if number == errno.EPIPE else [b"lfiload: cannot write standard output", *reason]
        unread = [b"lfiload: no memory"] if number == errno.ENOMEM else [b"lfiload: cannot read -", *reason]
        try_error(program, folder, library, ("write", "unpack a.img", None, output), number)
        try_error(program, folder, library, ("read", "check -", "a.code", unread), number)
        try_error(program, folder, library, ("read", "load -", "a.stream", [b"lfiload: connection 0: cannot read", *reason]), number)


# What takes a profile, and commands that print. Of a closed output nothing is told.
PROFILES = ("", " --profile 1", " --profile 2")
PRINTING = (
    "check --explain b.code", "check --all b.code", "check --format json b.code", "disassemble a.code", "disassemble --check --profile 2 a.code", "info a.code", "info a.stream",
    "info a.img", "unpack a.img", "load a.stream", "load --explain a.stream", "load --format json a.stream", "load --format json --explain a.stream",
)


def try_errors(program, folder, library):
    """Some errors of each command."""
    for number in (*SOME, errno.EPIPE):
        reason = reason_of(number)
        output = [] if number == errno.EPIPE else [b"lfiload: cannot write standard output", *reason]
        for row in (
            *(("write", f"{command}{options}", None, output) for command in ("check a.code", "pack a.code") for options in PROFILES),
            *(("write", command, None, output) for command in PRINTING),
            ("write", "pack --profile 2 --pages large a.code", None, output),
            ("write", "load --format json --out . a.stream", None, [b"lfiload: cannot write ./module-03.img", *reason, *output]),
            *(("read", f"{name} -", "a.code", [b"lfiload: cannot read -", *reason]) for name in ("disassemble", "pack", "info")),
            *(("read", f"{name} a.code", None, [b"lfiload: cannot read a.code", *reason]) for name in ("check", "check --explain", "disassemble", "pack", "info")),
            *(("read", command, "a.img", IMAGE_UNREAD) for command in ("unpack -", "unpack a.img", "run - --steps 5", "run a.img --steps 5")),
        ):
            try_error(program, folder, library, row, number)


def served(program, library, how, path, count, *words):
    """`serve` of so many clients, to which the system answers so."""
    given = {"env": answered(library, how), "stdout": subprocess.PIPE, "stderr": subprocess.PIPE}
    return subprocess.Popen([program, "serve", "--socket", path, "--connections", str(count), *words], **given)


def try_clients(program, folder, library):
    """Each error of a read of a client is told, also one that was interrupted; what had come by then is reported."""
    path = os.path.join(folder, "s")
    for number in (*ALL, errno.EINTR):
        serve = served(program, library, f"recv {number}", path, 1)
        with connected(path) as client, contextlib.suppress(OSError):
            client.sendall(FILES["a.stream"])
        told, errors = serve.communicate(timeout=60)
        came = told, errors.splitlines(), serve.returncode
        wanted = b"module 3: lost, fault 10\nconnection 0: fault 10\nstrays 0\n", [b"lfiload: connection 0: cannot read", *reason_of(number)], 3
        if came != wanted:
            wrong("answers", f"serve, recv {number}", came, wanted)


def try_each_client(program, folder, library):
    """Of eight clients each read fails with another error: each is told of its own connection."""
    numbers, path = [it for it in SAID if it not in (errno.EPIPE, errno.EPERM)][:8], os.path.join(folder, "each")
    serve = served(program, library, "each " + " ".join(map(str, numbers)), path, 8)
    with contextlib.ExitStack() as clients:
        for module in range(8):
            client = clients.enter_context(connected(path))
            client.sendall(formats.stream(module, NOP * 500))
        told, errors = serve.communicate(timeout=60)
    lost, faults = ("".join(f"{what} {it}: {more}\n" for it in range(8)) for what, more in (("module", "lost, fault 10"), ("connection", "fault 10")))
    lines = [line for it, number in enumerate(numbers) for line in (f"lfiload: connection {it}: cannot read", f"  {SAID[number]}")]
    came, wanted = (told.decode(), errors.decode().splitlines(), serve.returncode), (lost + faults + "strays 0\n", lines, 3)
    if came != wanted:
        wrong("answers", "serve of eight clients, each with its own error", came, wanted)


def try_notice(program, folder, library):
    """A notice is whole where little of it is taken at once: a client whose module is refused at its first word stays until it has come."""
    path = os.path.join(folder, "noticed")
    serve = served(program, library, "short", path, 1)
    with connected(path) as client:
        client.sendall(formats.stream(4, bytes(4) + NOP * 300_000)[:-12])
        told = b""
        while not told.endswith(b"\n") and select.select([serve.stderr], [], [], 20)[0]:
            told += os.read(serve.stderr.fileno(), 100)
    _, errors = serve.communicate(timeout=60)
    if (told, errors, serve.returncode) != (b"module 4 refused\n", b"", 1):
        wrong("answers", "serve, whose notice is taken in pieces", (told, errors, serve.returncode), "the notice, and status 1")


def try_each_stream(program, folder, library):
    """Of the streams of a load each read fails with another error: each is told of its own connection, in lines and as an object."""
    numbers = [it for it in SAID if it not in (errno.EPIPE, errno.EPERM)][:8]
    for module in range(8):
        pathlib.Path(folder, f"{module}.stream").write_bytes(formats.stream(module, NOP * 500))
    for count, options in itertools.product((1, 2, 3, 4, 8), ("", " --explain", " --format json", " --format json --explain")):
        command = f"load{options} " + " ".join(f"{it}.stream" for it in range(count))
        given = {"env": answered(library, "each " + " ".join(map(str, numbers))), "cwd": folder, "capture_output": True, "timeout": 60}
        done = subprocess.run([program, *command.split()], text=True, **given)
        lines = [line for it in range(count) for line in (f"lfiload: connection {it}: cannot read", f"  {SAID[numbers[it]]}")]
        if (done.stderr.splitlines(), done.returncode) != (lines, 3):
            wrong("answers", f"{command}, each with its own error", (done.stderr, done.returncode), (lines, 3))
        if "json" in command:
            told = [(it["fault"], it["read_error"]) for it in json.loads(done.stdout)["connections"]]
        else:
            told = [(10, SAID[numbers[int(it)]]) for it in re.findall(r"^connection (\d): fault 10$", done.stdout, re.M)]
        if told != [(10, SAID[it]) for it in numbers[:count]]:
            wrong("answers", f"{command}, each with its own error", done.stdout, numbers[:count])


def came_of(program, path, count, verifiers, library, number):
    """What `serve` comes to whose clients say nothing, and stay, and of which a thread can't be started."""
    serve = served(program, library, f"thread {number}", path, count, "--verifiers", str(verifiers))
    with contextlib.ExitStack() as clients:
        left = count
        while left and serve.poll() is None:
            client = clients.enter_context(socket.socket(socket.AF_UNIX))
            left -= client.connect_ex(path) == 0
            time.sleep(0.001)
        try:
            return *serve.communicate(timeout=20), serve.returncode
        except subprocess.TimeoutExpired:
            serve.kill()
            return "no end"


def try_silent_clients(program, folder, library):
    """Each thread of `serve` in turn can't be started: those of its connections and of its verifiers, and the sequencers'. It ends at once."""
    for count, verifiers, first in (1, 2, 1), (3, 2, 1), (8, 2, 1), (2, 8, 11), (8, 8, 17):
        for number in range(first, count + verifiers + 2):
            came = came_of(program, os.path.join(folder, "silent"), count, verifiers, library, number)
            if came != (b"", b"lfiload: no memory\n", 3):
                wrong("answers", f"serve of {count} silent clients by {verifiers} verifiers, whose thread {number} can't be started", came, "no memory")


def try_silent_input(program, folder, library):
    """Each thread of a load in turn can't be started, and in its standard input nothing comes: it ends at once."""
    for verifiers, names in itertools.product((1, 2, 8), (["-"], ["-", "0.stream"], ["0.stream", "-"])):
        for number in range(1, verifiers + len(names) + 1):
            reader, writer = os.pipe()
            given = {"env": answered(library, f"thread {number}"), "cwd": folder, "stdin": reader, "capture_output": True, "timeout": 20}
            try:
                done = subprocess.run([program, "load", "--verifiers", str(verifiers), *names], **given)
            except subprocess.TimeoutExpired:
                wrong("answers", f"load of {names} by {verifiers} verifiers, whose thread {number} can't be started", "no end", "no memory")
            os.close(reader), os.close(writer)
            if (done.stdout, done.stderr, done.returncode) != (b"", b"lfiload: no memory\n", 3):
                wrong("answers", f"load of {names} by {verifiers} verifiers, whose thread {number} can't be started", done, "no memory")


# Commands that tell several failures, each with a line and its reason, or none.
FAILING = (
    "check none.1 none.2 none.3", "check --explain none.1 none.2", "check --format json none.1 none.2", "info none.1 none.2 none.3", "check odd.bin none.1 odd.bin",
    "load --out nowhere 0.stream 1.stream",
)


def try_lost_lines(program, folder, library):
    """A line on the errors is lost: the others are told, and the status is 3."""
    pathlib.Path(folder, "odd.bin").write_bytes(bytes(3))
    for command in FAILING:
        errors = subprocess.run([program, *command.split()], cwd=folder, capture_output=True, timeout=60).stderr
        whole = re.findall(rb"(?m)^lfiload: .*\n(?:  .*\n)*", errors)
        for number in range(1, len(whole) + 1):
            given = {"env": answered(library, f"lose {number}"), "cwd": folder, "capture_output": True, "timeout": 60}
            done = subprocess.run([program, *command.split()], **given)
            wanted = b"".join(whole[: number - 1] + whole[number:])
            if (done.stderr, done.returncode) != (wanted, 3):
                wrong("answers", f"{command}, whose failure {number} is not told", (done.stderr, done.returncode), (wanted, 3))


def try_printing(program, folder, library):
    """A run whose output can't be written ends by a halt of its own, whatever the error is."""
    for how in ("nothing", *(f"write {number}" for number in ALL)):
        came = carried_out(program, folder, library, how, "run prints.img --steps 3000", None)
        if came != (b"", [b"halt 5 status 255 after 1 steps"], 0, {}):
            wrong("answers", f"run prints.img, {how}", came, "halt 5 status 255")


def try_nothing(program, folder, library):
    """A write that takes no byte is told, without a reason, and ends."""
    for command, source in COMMANDS:
        _, errors, status, _ = without_notice(carried_out(program, folder, library, "nothing", command, source))
        told = [line for line in errors if line.startswith(b"lfiload: cannot write")]
        if not command.startswith("run") and (status != 3 or not told or errors != told):
            wrong("answers", f"{command}, nothing is taken", (errors, status), "a line, and status 3")


# Of each: words, and so many files, each of which is closed before others are opened.
MANY = (
    (["load", "--out", ".", "all.stream"], 0, b"module 15: complete, 1 words\nstrays 0\n"), (["check"], 40, b"a.code: lawful, 20001 words\n"),
    (["check", "--format", "json"], 40, b'"lawful"'), (["info"], 40, b"a.code: code, 20001 words\n"), (["pack"], 16, formats.messages(15, FILES["a.code"])[-1]),
)
FEW = 12


def try_descriptors(program, folder):
    """Commands on many files, which may have few open at a time."""
    pathlib.Path(folder, "all.stream").write_bytes(b"".join(formats.stream(module, RET) for module in range(formats.MODULES)))
    for words, count, end in MANY:
        given = {"cwd": folder, "stdin": subprocess.DEVNULL, "capture_output": True, "timeout": 60}
        done = subprocess.run([program, *words, *["a.code"] * count], preexec_fn=lambda: resource.setrlimit(resource.RLIMIT_NOFILE, (FEW, FEW)), **given)
        if end not in done.stdout[-100:] or done.stderr or done.returncode:
            wrong("answers", f"{words} with {FEW} descriptors", (done.stdout[-100:], done.stderr, done.returncode), end)


def is_without_memory(came, plain):
    """Whether this is what comes of a command that has no memory any more: it tells that, or that there was none for a page, and else nothing but
    what is so. It writes whole images alone, of modules that it tells are complete."""
    out, errors, status, images = came
    told = [line for line in errors if line in UNKEPT or line.startswith(b"halt 7 ")]
    lines = set(out.splitlines()) - set(plain[0].splitlines()) if status == 1 else {}
    pages = [line for line in lines if re.fullmatch(rb"module \d+: no memory|connection \d+: fault 8", line)]
    is_told = status == 3 and told or status == 1 and len(pages) == len(lines) == 2
    return is_told and all(plain[3].get(name) == image for name, image in images.items())


def first_requests(carry_out, plain, what):
    """What comes of a command that gets memory for its first requests alone, for each number of these until it is five times as if it got all."""
    as_plain = 0
    for count in itertools.count():
        came = carry_out(f"memory {count}")
        as_plain = as_plain + 1 if came == plain else 0
        if as_plain == 5:
            return
        if came != plain and not is_without_memory(came, plain):
            wrong("answers", f"{what}, with memory for {count} requests", str(came)[:300], str(plain)[:300])


def try_without_memory(program, folder, library):
    """Each command without memory from some request on, also `serve` of two clients that send a stream each. A notice may come late."""
    for command, source in COMMANDS:
        carry_out = functools.partial(carried_out, program, folder, library, command=command, source=source)
        first_requests(lambda how: without_notice(carry_out(how)), without_notice(carry_out("")), command)
    path = os.path.join(folder, "two")

    def serve(how):
        server = served(program, library, how, path, 2)
        for module in range(2):
            with contextlib.suppress(OSError), socket.socket(socket.AF_UNIX) as client:
                while server.poll() is None and client.connect_ex(path):
                    time.sleep(0.001)
                client.sendall(formats.stream(module, NOP * 2_000))
        told, errors = server.communicate(timeout=60)
        if os.path.exists(path):
            wrong("answers", f"serve, {how}", "its socket is there still", "none")
        return told, errors.splitlines(), server.returncode, {}

    first_requests(serve, serve(""), "serve")


def try_answers(program):
    if not shutil.which("cc"):
        print("answers: left out, since cc isn't here")
        return
    with tempfile.TemporaryDirectory() as folder:
        library = os.path.join(folder, "answers.so")
        subprocess.run(["cc", "-O2", "-shared", "-fPIC", "-o", library, SOURCE], check=True)
        for name, content in FILES.items():
            pathlib.Path(folder, name).write_bytes(content)
        try_pieces(program, folder, library)
        try_all_errors(program, folder, library)
        try_errors(program, folder, library)
        try_clients(program, folder, library)
        try_each_client(program, folder, library)
        try_notice(program, folder, library)
        try_each_stream(program, folder, library)
        try_silent_clients(program, folder, library)
        try_silent_input(program, folder, library)
        try_lost_lines(program, folder, library)
        try_printing(program, folder, library)
        try_nothing(program, folder, library)
        try_without_memory(program, folder, library)
        try_descriptors(program, folder)
    print(f"answers: {len(COMMANDS)} commands whose reads and writes are short, interrupted or take nothing; {len(ALL)} errors; no memory from some request on; few descriptors")
