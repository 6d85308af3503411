"""The part of checks/hostile on how bytes come to the program: by its standard input and by clients, in small pieces, and more than 32 bits count."""

import contextlib
import os
import pathlib
import shutil
import socket
import subprocess
import tempfile
import threading

from lib import formats, steps
from lib.cases import NOP, WHOLE, wrong
from lib.formats import image
from lib.serving import connected

# Words, what is read from the standard input, and the most system calls; a load hands over 4,096 pages, and threads that sleep are called.
INPUTS = (
    (["check", "-"], WHOLE, 300), (["check", "--explain", "-"], WHOLE, 300), (["disassemble", "-"], WHOLE[:400_000], 1_200), (["pack", "-"], WHOLE, 9_000),
    (["info", "-"], formats.stream(0, WHOLE), 400), (["load", "-"], formats.stream(0, WHOLE), 2_500),
    (["unpack", "-"], image(0, 0, WHOLE), 9_000), (["run", "-", "--steps", "0"], image(0, 0, WHOLE), 4_500),
)


def calls_of_serve(program, folder, content):
    """The status of `serve` whose client sends this, and how many system calls it asks for."""
    done = []
    words = [program, "serve", "--socket", "s", "--connections", "1"]
    serve = threading.Thread(target=lambda: done.append(steps.calls_of(folder, words)))
    serve.start()
    with connected(os.path.join(folder, "s")) as client, contextlib.suppress(OSError):
        client.sendall(content)
    serve.join()
    return done[0]


def try_calls(program, folder):
    """Each command asks the system seldom for the bytes of its standard input, and `serve` for those of a client."""
    seen = []
    for words, content, most in INPUTS:
        pathlib.Path(folder, "input").write_bytes(content)
        with open(os.path.join(folder, "input"), "rb") as file:
            status, calls = steps.calls_of(folder, [program, *words], file)
        if calls is None:
            return "no calls are counted, since the system lets nobody trace here"
        if status or calls > most:
            wrong("fed", f"{' '.join(words)} of {len(content)} bytes", (status, calls), f"status 0, and at most {most} system calls")
        seen.append(calls)
    status, calls = calls_of_serve(program, folder, formats.stream(0, WHOLE))
    if status or calls > 3_000:
        wrong("fed", "`serve` of 16 MiB", (status, calls), "status 0, and at most 3,000 system calls")
    return f"system calls for 16 MiB of a standard input {seen}, of a client {calls}"


# Pages of each of eight streams, and how often threads may sleep where they are loaded by one verifier.
PAGES, MOST_SLEEPS = 2_000, 2_000
# In how many packets it comes; and words, what is read, and the most instructions less those of `--version`.
PACKETS = 500
PACKED = ((["check", "-"], NOP * 8_000, 280_000), (["load", "--verifiers", "1", "-"], formats.stream(0, NOP * 7_900), 760_000))


def feed(sender, content):
    """Sends this as so many packets."""
    size = -(-len(content) // PACKETS)
    with sender:
        for at in range(0, len(content), size):
            sender.send(content[at : at + size])


def try_packets(program, folder):
    """What comes in small packets is put together without much work."""
    steps.build(folder)
    seen = []
    _, least = steps.steps_of(folder, [program, "--version"])
    for words, content, most in PACKED if least is not None else ():
        sender, reader = socket.socketpair(socket.AF_UNIX, socket.SOCK_SEQPACKET)
        feeder = threading.Thread(target=feed, args=(sender, content))
        feeder.start()
        with reader:
            status, count, _, _ = steps.parts_of(folder, [program, *words], reader)
        feeder.join()
        if status or count - least > most:
            wrong("fed", f"{' '.join(words)} of {PACKETS} packets", (status, count - least), f"status 0, and at most {most} instructions")
        seen.append(count - least)
    return f"instructions for {PACKETS} packets {seen}"


def try_sleeps(program, folder):
    """How often the threads of a load go to sleep: they are called for many pages at once. Other work beside may let them sleep more often."""
    names = [f"{module}.stream" for module in range(8)]
    for module, name in enumerate(names):
        pathlib.Path(folder, name).write_bytes(formats.stream(module, NOP * (PAGES * 1024)))
    sleeps = []
    while len(sleeps) < 5 and min(sleeps, default=MOST_SLEEPS + 1) > MOST_SLEEPS:
        load = subprocess.Popen([program, "load", "--verifiers", "1", *names], cwd=folder, stdout=subprocess.DEVNULL)
        _, status, used = os.wait4(load.pid, 0)
        load.returncode = os.waitstatus_to_exitcode(status)
        sleeps.append(used.ru_nvcsw)
    if load.returncode or min(sleeps) > MOST_SLEEPS:
        wrong("fed", f"a load of eight streams of {PAGES} pages: status, and how often its threads slept", (load.returncode, sleeps), f"0, and once at most {MOST_SLEEPS}")
    return f"threads slept {min(sleeps)} times for {8 * PAGES} pages"


def try_long_client(program, folder):
    """A client of `serve` that sends more than 2^32 bytes: pages that no module takes, and a module."""
    pages, times = (formats.header(5, 0, 9, 0, formats.LARGE_PAGE) + bytes(formats.LARGE_PAGE)) * 500, 525
    words = [program, "serve", "--socket", "long", "--connections", "1", "--explain"]
    serve = subprocess.Popen(words, cwd=folder, stdout=subprocess.PIPE, text=True)
    with connected(os.path.join(folder, "long")) as client, contextlib.suppress(OSError):
        for _ in range(times):
            client.sendall(pages)
        client.sendall(formats.stream(3, NOP))
    told, strays = (serve.communicate(timeout=60)[0], serve.returncode), times * 500
    wanted = f"module 3: complete, 1 words\nstrays {strays}\nmodule 3: from connection 0\nconnection 0: strays {strays}\n", 0
    if told != wanted or times * len(pages) <= 1 << 32:
        wrong("fed", "a client that sends 4.3 GB", told, wanted)
    return "4.3 GB of a client read"


def try_fed(program):
    """System calls and instructions by which bytes are read; and many of them."""
    if not shutil.which("cc"):
        print("fed: left out, since cc isn't here")
        return
    with tempfile.TemporaryDirectory() as folder:
        steps.build(folder)
        print("fed: " + "; ".join(part(program, folder) for part in (try_calls, try_packets, try_sleeps, try_long_client)))
