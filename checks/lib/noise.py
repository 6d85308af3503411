"""The part of checks/hostile on threads that come late where they matter most: at the instructions by which they agree (Linux on x86-64).

A run is traced, with a breakpoint at each instruction that reads and writes a word of memory as one step (`lock cmpxchg`, `xchg` and their
kin). A thread that comes to one is held for a drawn time, while the others go on: what is lost where two threads do so at once shows itself.
"""

import ctypes
import errno
import heapq
import os
import pathlib
import platform
import random
import re
import shutil
import signal
import subprocess
import tempfile
import threading
import time

from lib import formats, traced
from lib.cases import NOP, RET, wrong
from lib.serving import connected, refused_last

LOADS, SHORT, SERVES, TOLD, SECONDS = 60, 40, 40, 30, 60
# How many places there are at least.
FEWEST = 50
# Words of a module: of few pages, and in each third load of so many that receivers wait for verifiers.
FEW, MANY = 30_000, 300_000
ATOMIC = re.compile(r"^ +([0-9a-f]+):\s+(lock \w+|xchg .*\()", re.M)
# Which part of the times a thread is held, and for how many seconds at most; and so the sequencers' thread alone, where it writes a word
# whatever stands there (`xchg`): what another one has written after it looked would be lost.
HELD, ONE_HELD = ((0.75, 0.0), (0.95, 0.0005), (1.0, 0.004)), 0.02


def sites_of(program):
    """Where in the program these instructions are, and whether one writes whatever stands there."""
    listing = subprocess.run(["objdump", "-d", "--no-show-raw-insn", program], capture_output=True, text=True, check=True).stdout
    return {int(at, 16): it.startswith("xchg") for at, it in ATOMIC.findall(listing)}


class Run(traced.Traced):
    """A run whose threads are held at these places; or its first one alone, which is the sequencers' where streams are loaded."""

    def __init__(self, program, words, out, err, sites, source, first_alone=False):
        super().__init__(program, words, out, err)
        self.writes = {at for at, writes in sites.items() if writes} if first_alone else None
        self.base, _ = traced.mapped(self.pid, program)
        self.source, self.late, self.held = source, [], 0
        self.bytes = {self.base + it: self.read(self.base + it, 1) for it in sites}
        for at in self.bytes:
            self.write(at, traced.BREAK)
        ptrace_on(self.pid)

    def go_on(self, thread):
        """Lets a thread that stands at a place carry out what is there."""
        self.thread = thread
        at = self.registers()[traced.RIP]
        self.write(at, self.bytes[at])
        stands = self.step()
        self.write(at, traced.BREAK)
        if stands:
            ptrace_on(thread)

    def stop(self, thread):
        """A thread stands at a place: it goes on now, or later."""
        self.thread = thread
        registers = self.registers()
        registers[traced.RIP] -= 1
        self.set_registers(registers)
        drawn = self.source.random()
        if self.writes is None:
            most = next(seconds for part, seconds in HELD if drawn < part)
        else:
            most = ONE_HELD * (thread == self.pid and registers[traced.RIP] - self.base in self.writes)
        if most == 0:
            self.go_on(thread)
        else:
            self.held += 1
            heapq.heappush(self.late, (time.monotonic() + self.source.uniform(0, most), thread))

    def unless_gone(self, what, thread):
        """Does this with a thread; nothing where it has gone with the process."""
        try:
            what(thread)
        except OSError as why:
            if why.errno != errno.ESRCH:
                raise

    def next(self):
        """One thing that happens. False: the run has ended."""
        while self.late and self.late[0][0] <= time.monotonic():
            self.unless_gone(self.go_on, heapq.heappop(self.late)[1])
        thread, state = os.waitpid(-1, traced.WAIT_ALL | os.WNOHANG)
        if thread == 0:
            time.sleep(0.0001)
        elif os.WIFSTOPPED(state):
            caught = os.WSTOPSIG(state)
            if caught == signal.SIGTRAP and state >> 16 == 0:
                self.unless_gone(self.stop, thread)
            else:
                ptrace_on(thread, 0 if caught in (signal.SIGSTOP, signal.SIGTRAP) else caught)
        elif thread == self.pid:
            self.state = state
            return False
        return True

    def end(self):
        """The status, or nothing where it doesn't end in time."""
        until = time.monotonic() + SECONDS
        while self.next():
            if time.monotonic() > until:
                os.kill(self.pid, signal.SIGKILL)
                return None
        os.close(self.memory)
        return self.status()


def ptrace_on(thread, caught=0):
    traced.libc.ptrace(traced.CONT, thread, None, ctypes.c_void_p(caught))


def trace(program, words, sites, number, clients=(), first_alone=False):
    """What a run prints, and its status; and how often a thread was held. Clients begin when it does."""
    with open("out", "w+b") as out, open("err", "w+b") as err:
        run = Run(str(program), [str(program), *words], out, err, sites, random.Random(f"noise {number}"), first_alone)
        for client in clients:
            client.start()
        status = run.end()
        for client in clients:
            client.join(SECONDS)
        out.seek(0), err.seek(0)
        return (out.read().decode(), err.read().decode(), status), run.held


def load(program, sites, number):
    """A load of one to four streams by one to four verifiers."""
    count = FEW if number % 3 else MANY
    streams = [f"{module}.{count}" for module in range(1 + number % 4)]
    words = ["load", "--verifiers", str(1 + number // 4 % 4), *streams]
    came, held = trace(program, words, sites, number)
    wanted = "".join(f"module {module}: complete, {count + 1} words\n" for module in range(len(streams))) + "strays 0\n", "", 0
    if came != wanted:
        wrong("noise", f"{words}, load {number}", came, wanted)
    return held


def load_short(program, sites, number):
    """A load of one word by many verifiers, which see the stream's end together."""
    words = ["load", "--verifiers", str((2, 3, 4, 8)[number % 4]), "short"]
    came, held = trace(program, words, sites, number)
    if came != ("module 5: complete, 1 words\nstrays 0\n", "", 0):
        wrong("noise", f"{words}, load {number}", came, "complete")
    return held


def visit(path, module):
    """A client that ends once it has sent a module."""
    with connected(path) as client:
        client.sendall(formats.stream(module, NOP * 2000 + RET))


def serve(program, sites, number):
    """One to four clients that send at the same time; every second time there is a limit, and their ends are counted."""
    path, count = f"s{number}", 1 + number % 4
    clients = [threading.Thread(target=visit, args=(path, module), daemon=True) for module in range(count)]
    limit = ["--seconds", "20"] if number // 4 % 2 else []
    words = ["serve", "--socket", path, "--connections", str(count), "--verifiers", str(1 + number // 4 % 4), *limit]
    came, held = trace(program, words, sites, number, clients)
    wanted = "".join(f"module {module}: complete, 2001 words\n" for module in range(count)) + "strays 0\n", "", 0
    if came != wanted:
        wrong("noise", f"{words}, {number}", came, wanted)
    return held


class Pipes(threading.Thread):
    """Three streams of a load that stay: these parts go to the first two, by which so many modules are refused; then messages that no module
    takes to all three, until that is told of each."""

    def __init__(self, paths, parts, pause, modules):
        super().__init__(daemon=True)
        self.paths, self.parts, self.pause, self.is_told = paths, parts, pause, False
        self.wanted = sum(len(f"module {it} refused\n") for it in modules)

    def run(self):
        streams = [open(path, "wb", buffering=0) for path in self.paths]
        time.sleep(20 * self.pause)
        for which, part in self.parts:
            streams[which].write(part)
            time.sleep(self.pause)
        until = time.monotonic() + SECONDS / 3
        while not self.is_told and time.monotonic() < until:
            for stream in streams:
                stream.write(formats.header(formats.CLOSE, 0, 15, 0, 0))
            time.sleep(0.01)
            self.is_told = os.path.getsize("err") >= self.wanted
        for stream in streams:
            stream.close()


def two_modules(number):
    """Whole groups of as many pages as call the sequencers, of two modules in turn; the last one of each is refused."""
    pages = 32 * (1 + number % 3)
    both = [[formats.header(1, 0, module, 1024 * (pages + 1), 0), *refused_last(pages, module)] for module in (7, 8)]
    return [(which, part) for parts in zip(*both) for which, part in enumerate(parts)], 0, {7: 1024 * (pages - 1), 8: 1024 * (pages - 1)}


def fifteen_modules(number):
    """Modules of which one page comes each, which is refused: one after another, so that the sequencers are called for each."""
    parts = [(module % 2, formats.header(1, 0, module, 1025, 0) + refused_last(1, module)[0]) for module in range(15)]
    return parts, 0.004 * (2 + number // 2 % 3), dict.fromkeys(range(15), 0)


def tell(program, sites, number):
    """Of modules that are refused at their last page each is told while the streams stay."""
    paths = [f"{number}.{name}" for name in ("first", "second", "third")]
    for path in paths:
        os.mkfifo(path)
    parts, pause, words = (two_modules, fifteen_modules)[number % 2](number)
    pipes = Pipes(paths, parts, pause, words)
    (out, err, status), held = trace(program, ["load", "--verifiers", str(1 + number // 2 % 2), *paths], sites, number, [pipes], number % 4 > 1)
    came = pipes.is_told, out.splitlines()[: len(words)], sorted(err.splitlines()), status
    wanted = True, [f"module {it}: refused, word {word} rule 1" for it, word in words.items()], sorted(f"module {it} refused" for it in words), 1
    if came != wanted:
        wrong("noise", f"{len(words)} modules, of which the last page is refused, and then nothing, load {number}", came, wanted)
    return held


def try_noise(program):
    if platform.machine() != "x86_64" or not shutil.which("objdump"):
        print("noise: left out, since this isn't x86-64 with objdump")
        return
    sites, before = sites_of(program), os.getcwd()
    if len(sites) < FEWEST or not any(sites.values()):
        wrong("noise", "the places at which threads agree", len(sites), f"at least {FEWEST}")
    with tempfile.TemporaryDirectory() as folder:
        for module in range(4):
            for count in FEW, MANY:
                pathlib.Path(folder, f"{module}.{count}").write_bytes(formats.stream(module, NOP * count + RET))
        pathlib.Path(folder, "short").write_bytes(formats.stream(5, RET))
        os.chdir(folder)
        ways = (load, LOADS), (load_short, SHORT), (serve, SERVES), (tell, TOLD)
        held = sum(sum(way(program, sites, number) for number in range(times)) for way, times in ways)
        os.chdir(before)
    print(f"noise: {LOADS + SHORT + TOLD} loads and {SERVES} runs of `serve`, whose threads were held {held} times at one of {len(sites)} places")
