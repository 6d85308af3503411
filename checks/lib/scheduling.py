"""The parts of checks/hostile on what one core does, on verifiers that are held, and on a client that nobody takes."""

import fcntl
import itertools
import json
import os
import pathlib
import platform
import select
import signal
import socket
import subprocess
import tempfile
import threading
import time

from lib import formats, traced
from lib.cases import NOP, RET, on_one_core, wrong
from lib.serving import connected, refused_last

LOADS, SERVES, SECONDS, TOGETHER, LARGE = 200, 100, 20, 300, 50
# A limit of time within which clients come on a busy machine, too.
SHORT = 4


# ---- core


def ended(part, words, running, wanted, err_wanted="", status=0):
    """What came of a run that has to end in time."""
    try:
        out, err = running.communicate(timeout=SECONDS)
    except subprocess.TimeoutExpired:
        running.kill()
        wrong(part, words[1:], "no end", f"an end within {SECONDS} seconds")
    if (out, err, running.returncode) != (wanted, err_wanted, status):
        wrong(part, words[1:], (out, err, running.returncode), (wanted, err_wanted, status))


def start(words, folder, before=None):
    return subprocess.Popen(words, cwd=folder, stdout=subprocess.PIPE, stderr=subprocess.PIPE, text=True, preexec_fn=before)


def load_once(program, folder, number):
    streams = [f"{module}.stream" for module in range(1 + number % 4)]
    words = [program, "load", "--verifiers", str(1 + number % 3), *streams]
    wanted = "".join(f"module {module}: complete, 3001 words\n" for module in range(len(streams))) + "strays 0\n"
    ended("core", words, start(words, folder, on_one_core), wanted)


def serve_once(program, folder, number):
    path = os.path.join(folder, f"s{number}")
    words = [program, "serve", "--socket", path, "--connections", "1", "--seconds", "3000"]
    serving = start(words, folder, on_one_core)
    with connected(path) as client:
        time.sleep(0.001 * (number % 20))
        client.sendall(formats.stream(0, RET))
    ended("core", words, serving, "module 0: complete, 1 words\nstrays 0\n")


def try_core(program):
    """A thread that isn't called where it sleeps shows itself on one core, since another one then rarely comes to its help."""
    with tempfile.TemporaryDirectory() as folder:
        for module in range(4):
            pathlib.Path(folder, f"{module}.stream").write_bytes(formats.stream(module, NOP * 3000 + RET))
        for number in range(LOADS):
            load_once(program, folder, number)
        for number in range(SERVES):
            serve_once(program, folder, number)
    print(f"core: {LOADS} loads and {SERVES} clients of `serve` on one core")


# ---- together


def end_together(program, folder, number):
    path = os.path.join(folder, f"s{number}")
    words = [program, "serve", "--socket", path, "--connections", "8", "--seconds", "30"]
    serving = start(words, folder)
    clients = []
    for module in range(8):
        clients.append(connected(path))
        clients[-1].sendall(formats.stream(module, RET))
    for client in clients:
        client.close()
    ended("together", words, serving, "".join(f"module {module}: complete, 1 words\n" for module in range(8)) + "strays 0\n")


def load_many(program, folder, verifiers):
    """More pages than a lane holds, by so many verifiers that some wait for room in it."""
    words = [program, "load", "--verifiers", str(verifiers), "large.stream"]
    ended("together", words, start(words, folder), "module 0: complete, 200001 words\nstrays 0\n")


def object_of(streams):
    """The object of a load of these streams, each of which has a module of its own."""
    modules = [{"module": it, "outcome": "complete", "words": it + 2, "connection": it} for it in range(len(streams))]
    modules += [{"module": it, "outcome": "unused"} for it in range(len(streams), formats.MODULES)]
    connections = [{"connection": it, "path": path, "strays": 0} for it, path in enumerate(streams)]
    return json.dumps({"modules": modules, "connections": connections, "strays": 0, "images": []}, separators=(",", ":")) + "\n"


def load_each_way(program, folder):
    """Each number of streams, by each number of verifiers, told in lines and as an object."""
    for count in range(1, 9):
        streams = [f"{module}.small" for module in range(count)]
        for verifiers, (form, wanted) in itertools.product(range(1, 9), (("text", complete(count)), ("json", object_of(streams)))):
            words = [program, "load", "--verifiers", str(verifiers), "--format", form, *streams]
            ended("together", words, start(words, folder), wanted)


def complete(count):
    """The report on so many modules, each of a word more than the one before."""
    return "".join(f"module {module}: complete, {module + 2} words\n" for module in range(count)) + "strays 0\n"


def start_served(program, folder, count, verifiers, seconds):
    """`serve` with so many clients, which send a module each and go; where its time is short, the last one is silent, and stays."""
    path, stay = os.path.join(folder, f"{count}-{verifiers}-{seconds}"), []
    words = [program, "serve", "--socket", path, "--connections", str(count), "--verifiers", str(verifiers), "--seconds", str(seconds)]
    running = start(words, folder)
    for number in range(count):
        client = connected(path)
        if seconds == SHORT and number == count - 1:
            stay.append(client)
            continue
        with client:
            client.sendall(formats.stream(number, NOP * (number + 1) + RET))
    return words, running, stay


def serve_each_way(program, folder):
    """`serve` of each number of clients by each number of verifiers: where all end, and where the last one stays until the time is over."""
    ways = [*itertools.product(range(1, 9), range(1, 9))]
    for seconds, told, status in (600, "", 0), (SHORT, "lfiload: time is over: connection {} had not ended\n", 1):
        for (count, _), (words, running, stay) in [(way, start_served(program, folder, *way, seconds)) for way in ways]:
            ended("together", words, running, complete(count - len(stay)), told.format(count - 1), status)
            for client in stay:
                client.close()


def try_together(program):
    """Threads that end at once each have their end told; and those that wait for room in one lane are called."""
    with tempfile.TemporaryDirectory() as folder:
        for number in range(TOGETHER):
            end_together(program, folder, number)
        pathlib.Path(folder, "large.stream").write_bytes(formats.stream(0, NOP * 200_000 + RET))
        for verifiers in (2, 3, 4, 8) * LARGE:
            load_many(program, folder, verifiers)
        for module in range(8):
            pathlib.Path(folder, f"{module}.small").write_bytes(formats.stream(module, NOP * (module + 1) + RET))
        load_each_way(program, folder)
        serve_each_way(program, folder)
    print(f"together: {TOGETHER} times eight clients of `serve` that end at once, {4 * LARGE} loads by many verifiers, one to eight streams and clients by one to eight")


# ---- held

# The numbers of the system calls by which a thread reads, and by which it waits for others.
READS, WAITS = {"aarch64": ("63", "98")}.get(platform.machine(), ("0", "202"))
# More seconds than this are no limit.
ENDLESS = 1 << 40
# Pages that are judged before the verifier is held; those that may be untaken from then on, and one in the pipe and one that is being read.
FIRST, MOST, PAGES = 10, 128 + 2, 1000
# Pages that come while a thread is held; after so many messages a connection's thread looks for what was refused, and how often they are tried.
HELD, LOOK, TRIES = 100, 64, 5
SETPIPE_SZ = 1031


def call_of(process, thread):
    """The number of the system call in which a thread is; another word where it is in none."""
    return pathlib.Path(f"/proc/{process}/task/{thread}/syscall").read_text().split()[0]


def sleeps(process, thread):
    """Whether a thread waits for others, until it is called: for no time but one without an end, and without looking again and again."""
    number, *arguments = pathlib.Path(f"/proc/{process}/task/{thread}/syscall").read_text().split()
    if number != WAITS:
        return False
    limit = int(arguments[3], 16)
    with open(f"/proc/{process}/mem", "rb", buffering=0) as memory:
        return limit == 0 or int.from_bytes(os.pread(memory.fileno(), 8, limit), "little") > ENDLESS


def fall_asleep(process, threads, between=lambda: None):
    """Whether these threads come to sleep, each time that one looks; something else may be done between."""
    until = time.monotonic() + SECONDS
    while time.monotonic() < until:
        between()
        if all(sleeps(process, thread) for _ in range(20) if time.sleep(0.01) is None for thread in threads):
            return True
    return False


def threads_of(process, streams, verifiers=1):
    """The threads that read, a stream each, and the others, once all are there: the sequencers' first, which is the process's, then the
    verifiers'."""
    until = time.monotonic() + SECONDS
    while time.monotonic() < until:
        threads = sorted(int(it) for it in os.listdir(f"/proc/{process}/task"))
        readers = [it for it in threads if call_of(process, it) == READS]
        if (len(readers), len(threads)) == (streams, streams + verifiers + 1):
            return readers, [it for it in threads if it not in readers]
    wrong("held", f"a load of {streams} pipes", "other threads", f"{streams} that read, and {verifiers + 1}")


def hold(threads):
    for thread in threads:
        traced.ptrace(traced.SEIZE, thread)
        traced.ptrace(traced.INTERRUPT, thread)
        os.waitpid(thread, traced.WAIT_ALL)


def let_go(threads):
    for thread in threads:
        traced.ptrace(traced.DETACH, thread)


def piped(folder, program, count, verifiers=1):
    """A load of so many pipes, by so many verifiers, and their other ends."""
    paths = [os.path.join(folder, f"{number}.stream") for number in range(count)]
    for path in paths:
        os.mkfifo(path)
    words = [program, "load", "--verifiers", str(verifiers), *paths]
    running = start(words, folder)
    return words, running, [open(path, "wb", buffering=0) for path in paths]


class Writer(threading.Thread):
    """Writes messages one by one, and counts them."""

    def __init__(self, out, parts):
        super().__init__(daemon=True)
        self.out, self.parts, self.count = out, parts, 0

    def run(self):
        for part in self.parts:
            self.out.write(part)
            self.count += 1
        self.out.close()

    def settled(self):
        """How many were written once no more are."""
        before = -1
        while self.count != before:
            before = self.count
            time.sleep(0.5)
        return before


def take_few(program, verifiers):
    """While none of so many verifiers works, the thread of a connection takes in 128 pages, and then sleeps."""
    with tempfile.TemporaryDirectory() as folder:
        parts = formats.messages(0, NOP * (1024 * (PAGES - 1)) + RET)
        words, running, (out,) = piped(folder, program, 1, verifiers)
        fcntl.fcntl(out, SETPIPE_SZ, 4096)
        out.write(b"".join(parts[: 1 + FIRST]))
        time.sleep(0.5)
        (thread,), others = threads_of(running.pid, 1, verifiers)
        hold(others)
        writer = Writer(out, parts[1 + FIRST :])
        writer.start()
        count = writer.settled()
        asleep = fall_asleep(running.pid, [thread])
        # On busy cores some of the first ones may be untaken, too.
        if not 128 - FIRST <= count <= MOST or not asleep:
            wrong("held", f"a connection's thread whose {verifiers} verifiers are held: pages, and whether it sleeps", (count, asleep), (f"{128 - FIRST} to {MOST}", True))
        let_go(others)
        ended("held", words, running, f"module 0: complete, {1024 * (PAGES - 1) + 1} words\nstrays 0\n")
    return count


def rest(program):
    """While the sequencers are held, the verifiers judge what has room, and then all sleep; so do all but a thread that reads where nothing comes."""
    with tempfile.TemporaryDirectory() as folder:
        words, running, (out,) = piped(folder, program, 1, 2)
        readers, (first, *verifiers) = threads_of(running.pid, 1, 2)
        idle = fall_asleep(running.pid, [first, *verifiers])
        hold([first])
        writer = Writer(out, formats.messages(0, NOP * (1024 * (PAGES - 1)) + RET))
        writer.start()
        count = writer.settled()
        full = fall_asleep(running.pid, [*readers, *verifiers])
        if not idle or not full or count >= PAGES:
            wrong("held", "threads that have nothing to do, and those whose sequencers are held: whether they sleep", (idle, full, count), (True, True))
        let_go([first])
        ended("held", words, running, f"module 0: complete, {1024 * (PAGES - 1) + 1} words\nstrays 0\n")


def let_begin():
    """A traced thread that begins stops first, and is let go on."""
    while (thread := os.waitpid(-1, traced.WAIT_ALL | os.WNOHANG)[0]) != 0:
        traced.ptrace(traced.CONT, thread)


def start_asleep(program):
    """While the last of eight threads isn't started, those that are wait for the start, and sleep."""
    with tempfile.TemporaryDirectory() as folder, tempfile.TemporaryFile() as out, tempfile.TemporaryFile() as err:
        paths = [os.path.join(folder, f"{module}.stream") for module in range(4)]
        for module, path in enumerate(paths):
            pathlib.Path(path).write_bytes(formats.stream(module, RET))
        words = [str(program), "load", "--verifiers", "4", *paths]
        run = traced.Traced(words[0], words, out, err)
        run.come_to(traced.entry(run.pid))
        place = traced.mapped(run.pid, "libc.so.6")[0] + traced.offset(traced.libc.pthread_create)
        came = sum(run.come_to(place) and (number == 7 or run.step()) for number in range(8))
        asleep = fall_asleep(run.pid, {int(it) for it in os.listdir(f"/proc/{run.pid}/task")} - {run.thread}, let_begin)
        while run.go():
            pass
        os.close(run.memory)
        if (came, asleep, run.status()) != (8, True, 0):
            wrong("held", f"{words[1:4]} of four streams: threads, whether they sleep before the last one is there, status", (came, asleep, run.status()), (8, True, 0))


def take_over(program, which):
    """While one of two verifiers is held, the other one judges all pages."""
    with tempfile.TemporaryDirectory() as folder:
        parts = formats.messages(0, NOP * (1024 * (PAGES - 1)) + RET)
        words, running, (out,) = piped(folder, program, 1, 2)
        held = [threads_of(running.pid, 1, 2)[1][1 + which]]
        hold(held)
        writer = Writer(out, parts)
        writer.start()
        writer.join(SECONDS)
        if writer.count != len(parts):
            wrong("held", f"verifier {which} of two is held", f"{writer.count} messages are taken in", len(parts))
        let_go(held)
        ended("held", words, running, f"module 0: complete, {1024 * (PAGES - 1) + 1} words\nstrays 0\n")


def read_beside(program, verifiers):
    """A long stream is read to its end while seven others say nothing."""
    with tempfile.TemporaryDirectory() as folder:
        parts = formats.messages(0, NOP * (1024 * (PAGES - 1)) + RET)
        words, running, (out, *silent) = piped(folder, program, 8, verifiers)
        writer = Writer(out, parts)
        writer.start()
        writer.join(SECONDS)
        if writer.count != len(parts):
            wrong("held", f"a stream beside seven that say nothing, by {verifiers} verifiers", f"{writer.count} messages are taken in", len(parts))
        for it in silent:
            it.close()
        ended("held", words, running, f"module 0: complete, {1024 * (PAGES - 1) + 1} words\nstrays 0\n")


def tell_refused(program, which):
    """Pages come while one of the other threads is held, which are the verifier and that of the sequencers. When it goes on, all are judged
    and placed: what is refused at the last of them is told, though both streams stay, once the other one has brought some messages."""
    with tempfile.TemporaryDirectory() as folder:
        words, running, (first, second) = piped(folder, program, 2)
        held = [threads_of(running.pid, 2)[1][which]]
        hold(held)
        first.write(formats.header(1, 0, 7, 1024 * (HELD + 1), 0) + b"".join(refused_last(HELD)))
        time.sleep(0.5)
        let_go(held)
        told, tried = "", 0
        while not told and tried < TRIES:
            time.sleep(0.5)
            second.write(LOOK * formats.header(formats.CLOSE, 0, 15, 0, 0))
            told = os.read(running.stderr.fileno(), 4096).decode() if select.select([running.stderr], [], [], SECONDS / TRIES)[0] else ""
            tried += 1
        first.close(), second.close()
        came = told, running.communicate(timeout=60)[0].splitlines()[:2]
        wanted = "module 7 refused\n", [f"module 7: refused, word {1024 * (HELD - 1)} rule 1", "connection 0: fault 9"]
        if came != wanted:
            wrong("held", f"{HELD} pages that come while thread {which} is held, and {tried} times {LOOK} messages", came, wanted)


def try_held(program):
    try:
        pathlib.Path("/proc/self/syscall").read_text()
    except OSError as why:
        print(f"held: left out: {why}")
        return
    try:
        if platform.machine() == "x86_64":
            start_asleep(program)
        rest(program)
        count = [take_few(program, verifiers) for verifiers in (1, 2, 8)]
        for verifiers in 1, 2, 8:
            read_beside(program, verifiers)
        for which in 0, 1:
            take_over(program, which)
            tell_refused(program, which)
    except PermissionError as why:
        print(f"held: left out: {why}")
        return
    except OSError as why:
        wrong("held", "a thread that is looked at or held", str(why), "one that is there")
    print(f"held: the thread of a connection took in {count} of {PAGES} pages while its verifier was held, and slept; {HELD} pages while another thread was; threads that wait sleep")


# ---- late


def is_cut_off(client):
    """Whether the other end is closed before long."""
    client.settimeout(SECONDS)
    try:
        return client.recv(1) == b""
    except ConnectionResetError:
        return True
    except socket.timeout:
        return False


# COMMANDS: One too many is cut off.
def try_late(program):
    """Two clients connect while `serve` is held, which takes one: the other one is cut off while the first stays."""
    with tempfile.TemporaryDirectory() as folder:
        path = os.path.join(folder, "s")
        words = [program, "serve", "--socket", path, "--connections", "1"]
        serving = start(words, folder)
        while not os.path.exists(path):
            time.sleep(0.01)
        time.sleep(0.5)
        serving.send_signal(signal.SIGSTOP)
        with connected(path) as first, connected(path) as second:
            serving.send_signal(signal.SIGCONT)
            if not is_cut_off(second):
                wrong("late", words[1:], "a client that waits", "one that is cut off")
            first.sendall(formats.stream(0, RET))
            first.shutdown(socket.SHUT_WR)
            ended("late", words, serving, "module 0: complete, 1 words\nstrays 0\n")
    print("late: a client of `serve` that came after the last one which was taken")
