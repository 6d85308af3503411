"""A run of a program under ptrace, all of whose threads stop at breakpoints (Linux on x86-64)."""

import ctypes
import os
import signal

TRACEME, CONT, STEP, GETREGS, SETREGS, DETACH, SETOPTIONS, SEIZE, INTERRUPT = 0, 7, 9, 12, 13, 17, 0x4200, 0x4206, 0x4207
TRACE_CLONES, KILL_AT_EXIT, WAIT_ALL = 8, 0x100000, 0x40000000
RAX, RSI, RDI, RIP, RSP = 10, 13, 14, 16, 19
AT_ENTRY = 9
BREAK = b"\xcc"

libc = ctypes.CDLL("libc.so.6", use_errno=True)
libc.ptrace.argtypes = [ctypes.c_long, ctypes.c_long, ctypes.c_void_p, ctypes.c_void_p]
libc.ptrace.restype = ctypes.c_long
Registers = ctypes.c_ulonglong * 27


def ptrace(request, pid, data=None):
    """One request of a stopped thread."""
    if libc.ptrace(request, pid, None, data) == -1:
        raise OSError(ctypes.get_errno(), f"ptrace {request}: {os.strerror(ctypes.get_errno())}")


def mapped(pid, path):
    """The lowest and the highest address at which a process has a file."""
    ends = []
    with open(f"/proc/{pid}/maps") as lines:
        for line in lines:
            parts = line.split()
            if len(parts) > 5 and os.path.basename(parts[5]) == os.path.basename(path):
                ends += [int(end, 16) for end in parts[0].split("-")]
    if not ends:
        raise OSError(f"{path} is not mapped")
    return min(ends), max(ends)


def entry(pid):
    """The address at which the program itself begins, once the C library is there."""
    with open(f"/proc/{pid}/auxv", "rb") as vector:
        words = memoryview(vector.read()).cast("Q").tolist()
    return dict(zip(words[::2], words[1::2]))[AT_ENTRY]


def offset(function):
    """How far a function of the C library stands above where the library is mapped."""
    return ctypes.cast(function, ctypes.c_void_p).value - mapped("self", "libc.so.6")[0]


class Traced:
    """A traced run of the program with all its threads, stopped at its first instruction."""

    def __init__(self, program, words, out, err):
        self.pid = os.fork()
        if self.pid == 0:
            os.dup2(out.fileno(), 1)
            os.dup2(err.fileno(), 2)
            libc.ptrace(TRACEME, 0, None, None)
            os.execv(program, words)
        # The thread that stopped last.
        self.thread, self.state = os.waitpid(self.pid, 0)
        ptrace(SETOPTIONS, self.pid, TRACE_CLONES | KILL_AT_EXIT)
        self.memory = os.open(f"/proc/{self.pid}/mem", os.O_RDWR)

    def go(self):
        """Lets the thread that stopped last go on, and tells whether some thread stands at a breakpoint."""
        ptrace(CONT, self.thread)
        while True:
            self.thread, self.state = os.waitpid(-1, WAIT_ALL)
            if not os.WIFSTOPPED(self.state):
                if self.thread == self.pid:
                    return False
                continue
            caught = os.WSTOPSIG(self.state)
            if caught == signal.SIGTRAP and self.state >> 16 == 0:
                return True
            # A thread that begins stops, and so does the one that made it.
            passed = 0 if caught in (signal.SIGSTOP, signal.SIGTRAP) else caught
            libc.ptrace(CONT, self.thread, None, passed)

    def come_to(self, place):
        """Goes on until some thread comes to this place, where it stands, and tells whether one came."""
        kept = self.read(place, 1)
        self.write(place, BREAK)
        came = self.go()
        if came:
            self.write(place, kept)
            registers = self.registers()
            registers[RIP] = place
            self.set_registers(registers)
        return came

    def step(self):
        """Lets that thread take one step, while the others go on, and tells whether it stands."""
        ptrace(STEP, self.thread)
        _, self.state = os.waitpid(self.thread, WAIT_ALL)
        return os.WIFSTOPPED(self.state)

    def status(self):
        """The exit status of a run that has ended, negative where a signal ended it."""
        if os.WIFEXITED(self.state):
            return os.WEXITSTATUS(self.state)
        return -os.WTERMSIG(self.state)

    def registers(self):
        registers = Registers()
        ptrace(GETREGS, self.thread, ctypes.byref(registers))
        return registers

    def set_registers(self, registers):
        ptrace(SETREGS, self.thread, ctypes.byref(registers))

    def read(self, at, count):
        return os.pread(self.memory, count, at)

    def write(self, at, data):
        os.pwrite(self.memory, data, at)

    def set_errno(self, registers, place, number):
        """The thread that stopped last stands at the first instruction of a function. It calls `__errno_location`, which is at this place,
        instead, and the number is written to where that points. Tells whether the thread came back to its caller."""
        caller = int.from_bytes(self.read(registers[RSP], 8), "little")
        registers[RIP] = place
        self.set_registers(registers)
        for _ in range(20):
            if not self.step():
                return False
            now = self.registers()
            if now[RIP] == caller:
                self.write(now[RAX], number.to_bytes(4, "little"))
                return True
        return False
