"""The parts of checks/hostile that are clients of `serve`: too few descriptors, a thread refused, a limit of time, silence, noise."""

import atexit
import collections
import contextlib
import json
import os
import pathlib
import random
import re
import resource
import select
import shutil
import signal
import socket
import struct
import subprocess
import tempfile
import threading
import time

from lib import formats
from lib.cases import NOP, OPENS, RET, on_one_core, wrong
from lib.plain import connection, outcome


# ---- clients


def connected(path):
    """A client of the socket at a path, once somebody listens there."""
    client = socket.socket(socket.AF_UNIX)
    for _ in range(1000):
        try:
            client.connect(path)
            return client
        except OSError:
            time.sleep(0.01)
    return client


def send(path, text, source, how, delay):
    """One client: its text in pieces of 1 to 4,096 bytes, and pauses between some."""
    client = connected(path)
    time.sleep(delay)
    with client:
        if how == "reads nothing":
            client.shutdown(socket.SHUT_RD)
        while text:
            size = source.choice((1, 12, 100, 4096, source.randrange(1, 4097)))
            try:
                client.sendall(text[:size])
            except OSError:
                return
            text = text[size:]
            if source.random() < 0.02:
                time.sleep(0.001)
        if how == "resets":
            client.setsockopt(socket.SOL_SOCKET, socket.SO_LINGER, struct.pack("ii", 1, 0))


# ---- taken


def serve_few(program, taken, words, word=RET):
    """What comes of `serve` of three clients, which has descriptors for so many of them. Each sends a module of one word."""
    with tempfile.TemporaryDirectory() as folder:
        path = os.path.join(folder, "s")
        # The listener has 3.
        few = (4 + taken, 4 + taken)
        words = [program, "serve", "--socket", path, "--connections", "3", *words]
        serve = subprocess.Popen(
            words, stdout=subprocess.PIPE, stderr=subprocess.PIPE, text=True, cwd=folder,
            preexec_fn=lambda: resource.setrlimit(resource.RLIMIT_NOFILE, few),
        )
        for _ in range(taken):
            send(path, formats.stream(0, word), random.Random(0), "", 0)
        return *serve.communicate(timeout=60), serve.returncode


def status_of(process, key):
    """A number that the system tells of a process."""
    return int(re.search(rf"^{key}:\s+(\d+)", pathlib.Path(f"/proc/{process.pid}/status").read_text(), re.M)[1])


def flood(client):
    """Sends messages that no module takes, as long as somebody reads them."""
    try:
        while True:
            client.sendall(formats.header(formats.CLOSE, 0, 9, 0, 0) * 1000)
    except OSError:
        pass


def try_refused_thread(program, words, floods):
    """`serve` of two clients, of which the second is refused a thread: there are no addresses left for its stack. The first stays, with half of
    a module sent, or sends on."""
    with tempfile.TemporaryDirectory() as folder:
        path = os.path.join(folder, "s")
        words = [program, "serve", "--socket", path, "--connections", "2", "--verifiers", "1", *words]
        serve = subprocess.Popen(words, stdout=subprocess.PIPE, stderr=subprocess.PIPE, text=True)
        with connected(path) as first:
            if floods:
                threading.Thread(target=flood, args=(first,), daemon=True).start()
            else:
                first.sendall(formats.stream(3, NOP * 2_000)[:6_000])
            # The first one's thread is the fourth.
            while serve.poll() is None and status_of(serve, "Threads") < 4:
                time.sleep(0.01)
            most = 1024 * status_of(serve, "VmSize")
            resource.prlimit(serve.pid, resource.RLIMIT_AS, (most, most))
            with connected(path):
                came = *serve.communicate(timeout=60), serve.returncode, b"" if floods else first.recv(1)
        wanted = "", "lfiload: no memory\n", 3, b""
        if came != wanted:
            wrong("taken", "a thread refused", came, wanted)


def send_all(client, streams):
    """Sends these, as long as somebody reads them."""
    with contextlib.suppress(OSError):
        for stream in streams:
            client.sendall(stream)


def of_four_threads(user, cores):
    """Lets the process that is to be started run on these cores, and belong to a user who may have four threads."""

    def become():
        os.sched_setaffinity(0, cores)
        resource.setrlimit(resource.RLIMIT_NPROC, (4, 4))
        os.setgroups([])
        os.setgid(user)
        os.setuid(user)

    return become


def refused_while_judged(program, folder, streams, delay, cores):
    """What comes of `serve` of two clients on these cores, of which the first sends whole modules, and the second is refused a thread so many
    seconds later. None where it has one."""
    path = tempfile.mktemp(dir=folder)
    words = [os.path.join(folder, program.name), "serve", "--socket", path, "--connections", "2", "--verifiers", "1"]
    # A user whom nobody else is: threads are counted by user.
    few = of_four_threads(64_000 + os.getpid() % 1000, cores)
    serve = subprocess.Popen(words, stdout=subprocess.PIPE, stderr=subprocess.PIPE, text=True, preexec_fn=few)
    with connected(path) as first:
        threading.Thread(target=send_all, args=(first, streams), daemon=True).start()
        while serve.poll() is None and status_of(serve, "Threads") < 4:
            time.sleep(0.001)
        time.sleep(delay)
        with connected(path):
            try:
                return *serve.communicate(timeout=20), serve.returncode
            except subprocess.TimeoutExpired:
                threads = status_of(serve, "Threads")
                serve.kill()
                serve.communicate()
                return f"not ended after 20 seconds, with {threads} threads" if threads <= 4 else None


def refused_at_times(program, folder, code, cores, delays):
    """A second client is refused a thread so many seconds after the first one has sent modules of this code. Why it can't be tried, if so."""
    streams = [formats.stream(module, code) for module in range(formats.MODULES)]
    for delay in delays:
        try:
            came = refused_while_judged(program, folder, streams, delay, cores)
        except (PermissionError, subprocess.SubprocessError):
            return "none while modules are judged, since another user can't come to the folder"
        if came is None:
            return "none while modules are judged, since threads aren't counted by user here"
        if came != ("", "lfiload: no memory\n", 3):
            wrong("taken", f"a thread refused while modules are judged, on {len(cores)} cores", came, "no memory")
    return None


def try_refused_while_judged(program):
    """The same, while the first one's thread waits for the verifier, which judges slower than the modules come; and while the verifier waits for
    the sequencers, which is so on one core: the second comes at several times. Answers what is told of it."""
    if os.geteuid() != 0:
        return "none while modules are judged, since only root can be another user"
    cores = os.sched_getaffinity(0)
    # add x18, x21, w0, uxtw; ldr x0, [x18].
    guarded = formats.code_of(0x8B2042B2, 0xF9400240) * 1_000_000
    with tempfile.TemporaryDirectory() as folder:
        os.chmod(folder, 0o777)
        # For another user to carry out, whatever the mode of the program is.
        os.chmod(shutil.copy(program, folder), 0o755)
        left_out = refused_at_times(program, folder, guarded, cores, [(20 + 10 * (number * 7 % 15)) / 1000 for number in range(16)])
        left_out = left_out or refused_at_times(program, folder, NOP * 4_000_000, {min(cores)}, [(5 + 7 * (number % 20)) / 1000 for number in range(100)])
    return left_out or "and 116 times while modules are judged"


def size_of_serve(program):
    """How many bytes of addresses `serve` has with one verifier, while nobody has come."""
    with tempfile.TemporaryDirectory() as folder:
        path = os.path.join(folder, "s")
        serve = subprocess.Popen([program, "serve", "--socket", path, "--connections", "1", "--verifiers", "1"], stdout=subprocess.DEVNULL)
        while serve.poll() is None and not (os.path.exists(path) and status_of(serve, "Threads") == 3):
            time.sleep(0.01)
        size = 1024 * status_of(serve, "VmSize")
        connected(path).close()
        serve.wait(timeout=60)
        return size


def try_refused_verifier(program):
    """`serve` whose verifiers' threads are refused, before anybody came: it ends by itself."""
    size = size_of_serve(program)
    with tempfile.TemporaryDirectory() as folder:
        words = [program, "serve", "--socket", os.path.join(folder, "s"), "--connections", "1", "--verifiers", "8"]
        serve = subprocess.Popen(
            words, stdout=subprocess.PIPE, stderr=subprocess.PIPE, text=True, preexec_fn=lambda: resource.setrlimit(resource.RLIMIT_AS, (size, size))
        )
        came = *serve.communicate(timeout=60), serve.returncode
        if came != ("", "lfiload: no memory\n", 3):
            wrong("taken", "a verifier's thread refused, and nobody there", came, "no memory")


# HELP: The status is load's; it is 3 as well where a connection was not taken: that one has no messages.
# HELP: lfiload: connection C: cannot read It was not taken, or a read of it failed (status 3).
def try_taken(program):
    """`serve` that has no descriptor left for the second client, or for any."""
    for taken in (0, 1):
        told = "".join(f"lfiload: connection {number}: cannot read\n" for number in range(taken, 3))
        wanted = "module 0: complete, 1 words\n" * taken + "strays 0\n", told, 3
        for words in ([], ["--seconds", "3000"]):
            came = serve_few(program, taken, words)
            if came != wanted:
                wrong("taken", f"{taken} of three clients", came, wanted)
        out, err, status = serve_few(program, taken, ["--format", "json"])
        came = [it.get("client") for it in json.loads(out)["connections"]], err, status
        wanted = ["heard"] * taken + ["not taken"] * (3 - taken), told, 3
        if came != wanted:
            wrong("taken", f"{taken} of three clients, as an object", came, wanted)
    out, err, status = serve_few(program, 1, [], bytes(4))
    came, wanted = (out, err.replace("module 0 refused\n", ""), status), ("module 0: refused, word 0 rule 1\nstrays 0\n", told, 3)
    if came != wanted:
        wrong("taken", "one of three clients, whose module is refused", came, wanted)
    for words in ([], ["--seconds", "3000"]):
        for floods in (False, True):
            try_refused_thread(program, words, floods)
    try_refused_verifier(program)
    judged = try_refused_while_judged(program)
    print(
        "taken: `serve` with descriptors for none and for one of three clients: each connection without one is told, in both formats; "
        "a thread refused for the second of two, and for a verifier: it ends, though the first stays or sends on, and though nobody came; "
        f"{judged}"
    )


# ---- limit


def seconds_of_serve(program, count, comes):
    """How long `serve --seconds 4` takes of so many connections, of which one has a client after so many seconds, which stays; or none
    has. And what it writes to the errors, each write by itself, its status, and how many seconds of a processor it took."""
    with tempfile.TemporaryDirectory() as folder:
        path, begin = os.path.join(folder, "s"), time.monotonic()
        ours, theirs = socket.socketpair(socket.AF_UNIX, socket.SOCK_SEQPACKET)
        words = [program, "serve", "--socket", path, "--connections", str(count), "--seconds", "4"]
        before = resource.getrusage(resource.RUSAGE_CHILDREN)
        with ours:
            with theirs:
                serve = subprocess.Popen(words, stdout=subprocess.DEVNULL, stderr=theirs)
            if comes is not None:
                time.sleep(comes)
                client = connected(path)
            serve.wait(timeout=60)
            seconds, after = time.monotonic() - begin, resource.getrusage(resource.RUSAGE_CHILDREN)
            used = after.ru_utime + after.ru_stime - before.ru_utime - before.ru_stime
            if comes is not None:
                client.close()
            ours.settimeout(60)
            return seconds, list(iter(lambda: ours.recv(4096), b"")), serve.returncode, used


# COMMANDS: `lfiload: time is over: ..` tells each that had not come or not ended; the status is 1 or 3.
def try_one_limit(program, count, comes):
    state = "come" if comes is None else "ended"
    told = [f"lfiload: time is over: connection {c} had not {state if c == 0 else 'come'}\n".encode() for c in range(count)]
    status_told = 3 if count > 1 or comes is None else 1
    # Busy cores may make one late. A longer limit would make each of them so.
    for _ in range(5):
        seconds, parts, status, used = seconds_of_serve(program, count, comes)
        if seconds < 4 or (parts, status) != (told, status_told):
            wrong("limit", "`serve --seconds 4`", (seconds, parts, status), ("at least four seconds", told, status_told))
        if used > 0.5:
            wrong("limit", "`serve --seconds 4`, which mostly waits", used, "at most half a second of a processor")
        if seconds < 4.8:
            return
    wrong("limit", "`serve --seconds 4`", seconds, "less than 4.8 seconds, once in five times")


def try_one_ends_late(program):
    """`serve --seconds 4` of two clients, one of which ends after three seconds, and the other one stays: it ends as soon as without that."""
    for _ in range(5):
        with tempfile.TemporaryDirectory() as folder:
            path, begin, before = os.path.join(folder, "s"), time.monotonic(), resource.getrusage(resource.RUSAGE_CHILDREN)
            words = [program, "serve", "--socket", path, "--connections", "2", "--seconds", "4"]
            serve = subprocess.Popen(words, stdout=subprocess.PIPE, stderr=subprocess.PIPE, text=True)
            with connected(path) as first, connected(path):
                time.sleep(max(0, begin + 3 - time.monotonic()))
                first.close()
                came = *serve.communicate(timeout=60), serve.returncode
            used = sum(resource.getrusage(resource.RUSAGE_CHILDREN)[:2]) - sum(before[:2])
            seconds, wanted = time.monotonic() - begin, ("strays 0\n", "lfiload: time is over: connection 1 had not ended\n", 1)
            if came != wanted or seconds < 4:
                wrong("limit", "two clients, one of which ends after three seconds", (came, seconds), (wanted, "at least four seconds"))
            if used > 0.5:
                wrong("limit", "two clients, one of which ends after three seconds", used, "at most half a second of a processor")
            # Busy cores may make one late.
            if seconds < 4.8:
                return
    wrong("limit", "two clients, one of which ends after three seconds", seconds, "less than 4.8 seconds, once in five times")


def try_eight_stay(program):
    """`serve` with a limit, and eight clients that send a module each and stay: each is cut off, and what it has sent is read."""
    with tempfile.TemporaryDirectory() as folder, contextlib.ExitStack() as open_ones:
        path = os.path.join(folder, "s")
        words = [program, "serve", "--socket", path, "--connections", "8", "--seconds", "2"]
        serve = open_ones.enter_context(subprocess.Popen(words, stdout=subprocess.PIPE, stderr=subprocess.PIPE, text=True))
        clients = [open_ones.enter_context(connected(path)) for _ in range(8)]
        for module, client in enumerate(clients):
            client.sendall(formats.stream(module, RET))
            client.settimeout(20)
        try:
            came = *serve.communicate(timeout=20), serve.returncode, [client.recv(1) for client in clients]
        except (TimeoutError, subprocess.TimeoutExpired):
            serve.kill()
            came = "it doesn't end"
    report = "".join(f"module {module}: complete, 1 words\n" for module in range(8)) + "strays 0\n"
    wanted = report, "".join(f"lfiload: time is over: connection {c} had not ended\n" for c in range(8)), 1, [b""] * 8
    if came != wanted:
        wrong("limit", "eight clients that stay", came, wanted)


# COMMANDS: What a client has sent by then is still read.
def try_sent_in_time(program):
    """`serve` that is stopped while a client sends, until the time is over: what was sent is still read."""
    with tempfile.TemporaryDirectory() as folder:
        path = os.path.join(folder, "s")
        words = [program, "serve", "--socket", path, "--connections", "1", "--verifiers", "1", "--seconds", "2"]
        serve = subprocess.Popen(words, stdout=subprocess.PIPE, stderr=subprocess.PIPE, text=True)
        with connected(path) as client:
            while serve.poll() is None and status_of(serve, "Threads") < 4:
                time.sleep(0.01)
            serve.send_signal(signal.SIGSTOP)
            client.settimeout(60)
            client.sendall(formats.stream(0, NOP * 20_000 + RET))
            time.sleep(2.5)
            serve.send_signal(signal.SIGCONT)
            came = *serve.communicate(timeout=60), serve.returncode
    wanted = "module 0: complete, 20001 words\nstrays 0\n", "lfiload: time is over: connection 0 had not ended\n", 1
    if came != wanted:
        wrong("limit", "what was sent before the time was over", came, wanted)


def try_client_in_time(program):
    """`serve` with a long limit: a client that comes after three seconds, and goes, is heard at once."""
    for _ in range(5):
        with tempfile.TemporaryDirectory() as folder:
            path = os.path.join(folder, "s")
            words = [program, "serve", "--socket", path, "--connections", "1", "--seconds", "3000"]
            serve = subprocess.Popen(words, stdout=subprocess.PIPE, text=True)
            time.sleep(3)
            begin = time.monotonic()
            with connected(path) as client:
                client.sendall(formats.stream(0, RET))
            came = serve.communicate(timeout=60)[0], serve.returncode
            if came != ("module 0: complete, 1 words\nstrays 0\n", 0):
                wrong("limit", "a client after three seconds", came, "heard")
            # Busy cores may make one late.
            if time.monotonic() - begin < 0.5:
                return
    wrong("limit", "a client after three seconds", "heard late", "heard within half a second, once in five times")


def try_one_after_another(program):
    """`serve` with a limit that is far off: eight clients come at once, and end one after another."""
    with tempfile.TemporaryDirectory() as folder:
        path = os.path.join(folder, "s")
        words = [program, "serve", "--socket", path, "--connections", "8", "--seconds", "600"]
        serve = subprocess.Popen(words, stdout=subprocess.PIPE, stderr=subprocess.PIPE, text=True)
        clients = [connected(path) for _ in range(8)]
        for module, client in enumerate(clients):
            for part in formats.stream(module, RET)[:20], formats.stream(module, RET)[20:]:
                client.sendall(part)
                time.sleep(0.1)
            client.close()
        came = *serve.communicate(timeout=60), serve.returncode
    wanted = "".join(f"module {module}: complete, 1 words\n" for module in range(8)) + "strays 0\n", "", 0
    if came != wanted:
        wrong("limit", "eight clients that end one after another", came, wanted)


def hurried(folder):
    """What is to be loaded before the C library, so that no sleep takes any time; nothing where it can't be compiled."""
    made = os.path.join(folder, "hurried.so")
    words = ["cc", "-O2", "-shared", "-fPIC", "-o", made, pathlib.Path(__file__).with_name("hurried.c")]
    return made if shutil.which("cc") and subprocess.run(words).returncode == 0 else None


def try_hours(program):
    """`serve` with a limit of two hours, for which nobody comes, or of a day, with a client that stays and is silent: each time it waits
    for all of it. While it waits for whoever comes it never sleeps long."""
    with tempfile.TemporaryDirectory() as folder:
        library = hurried(folder)
        for limit, comes in ((7200, False), (86_400, True)) if library else ():
            path, kept = os.path.join(folder, "s"), pathlib.Path(folder, "seconds")
            words = [program, "serve", "--socket", path, "--connections", "1", "--seconds", str(limit)]
            loaded = {**os.environ, "LD_PRELOAD": library, "HURRIED": str(kept)}
            serve = subprocess.Popen(words, stderr=subprocess.PIPE, stdout=subprocess.DEVNULL, text=True, env=loaded)
            client = connected(path) if comes else None
            try:
                told = serve.communicate(timeout=60)[1], serve.returncode
            except subprocess.TimeoutExpired:
                serve.kill()
                told = serve.communicate()[1], None
            wanted = f"lfiload: time is over: connection 0 had not {'ended' if comes else 'come'}\n", 1 if comes else 3
            waited, longest = map(int, kept.read_text().split()) if kept.exists() else (-1, -1)
            if told != wanted or not limit - 60 <= waited <= limit + 60 or longest > 20_000:
                wrong("limit", f"{limit} hurried seconds, with a client: {comes}", (told, waited, longest), (wanted, f"about {limit}", "at most 20,000 us a sleep"))
    return "two hours and a day were waited for" if library else "no hours were waited for, since cc isn't here"


# HELP: The report waits for each connection, also for one that sends nothing.
def try_no_limit(program):
    """`serve` without a limit waits for a client as long as that takes: what waits with a limit of its own has waited long after a second,
    since no wait takes any time."""
    with tempfile.TemporaryDirectory() as folder:
        library, path = hurried(folder), os.path.join(folder, "s")
        if not library:
            return
        for count in 1, 2:
            words = [program, "serve", "--socket", path, "--connections", str(count)]
            pipes = {"stdout": subprocess.PIPE, "stderr": subprocess.PIPE}
            serve = subprocess.Popen(words, text=True, env={**os.environ, "LD_PRELOAD": library}, **pipes)
            with connected(path) as client:
                time.sleep(1)
                is_over = serve.poll() is not None or select.select([client], [], [], 0)[0]
                with contextlib.suppress(OSError):
                    client.sendall(formats.stream(0, RET))
            if count == 2:
                connected(path).close()
            told, wanted = (*serve.communicate(timeout=60), serve.returncode), ("module 0: complete, 1 words\nstrays 0\n", "", 0)
            if is_over or told != wanted:
                wrong("limit", f"no limit, hurried, and the first of {count} clients that is silent", (is_over, told), (False, wanted))


def try_limit(program):
    try_one_limit(program, 2, None)
    try_one_limit(program, 2, 2.9)
    try_one_limit(program, 1, 2.9)
    try_one_ends_late(program)
    try_eight_stay(program)
    try_client_in_time(program)
    try_sent_in_time(program)
    try_one_after_another(program)
    hours = try_hours(program)
    try_no_limit(program)
    print(
        "limit: `serve --seconds 4` without a client, and with one that comes after 2.9, of two and of one, and one of two that ends after 3: it ends after four seconds "
        "and before 4.8, and tells of each connection in one write; of eight that stay each is cut off; with a long limit one that comes after three is heard at once; what was sent in time is read; "
        f"of eight that end one after another all are heard; {hours}"
    )


# ---- waits


def seconds_of_processor(process):
    """How many seconds of a processor a process that runs has taken."""
    fields = pathlib.Path(f"/proc/{process.pid}/stat").read_text().rpartition(")")[2].split()
    return (int(fields[11]) + int(fields[12])) / os.sysconf("SC_CLK_TCK")


class Waiting:
    """`serve` of two clients without a limit of time: the first sends 70 pages and the beginning of one more, the second hasn't come."""

    def __init__(self, program):
        self.room, self.begin = tempfile.TemporaryDirectory(), time.monotonic()
        self.path = os.path.join(self.room.name, "s")
        self.serve = subprocess.Popen([program, "serve", "--socket", self.path, "--connections", "2"], stdout=subprocess.PIPE, text=True)
        # Where another part fails, it would wait for ever.
        atexit.register(self.serve.kill)
        self.first, self.text = connected(self.path), formats.stream(0, NOP * (1024 * 70) + RET)
        self.first.sendall(self.text[:-16])

    def end(self):
        """At least 75 seconds later the first sends the rest, and the second comes. Until then all threads sleep, once the pages are placed."""
        time.sleep(max(0, self.begin + 75 - time.monotonic()))
        waited, spent = int(time.monotonic() - self.begin), seconds_of_processor(self.serve)
        if spent > 3:
            wrong("waits", f"a client that is silent after 70 pages, for {waited} seconds", f"{spent} seconds of a processor", "at most 3")
        # Where `serve` has ended by then, what it told is compared.
        with self.first, contextlib.suppress(OSError), connected(self.path) as second:
            self.first.sendall(self.text[-16:])
            second.sendall(formats.stream(1, RET))
        came, wanted = (self.serve.communicate(timeout=60)[0], self.serve.returncode), ("module 0: complete, 71681 words\nmodule 1: complete, 1 words\nstrays 0\n", 0)
        if came != wanted:
            wrong("waits", f"a client that is silent, and one that comes late, for {waited} seconds", came, wanted)
        print(f"waits: a client that is silent within a message, and one that comes late, for {waited} seconds")
        self.room.cleanup()


# ---- slow


def told_while(client, serve):
    """The notice that comes while a client sends messages that no module takes: its thread tells what became of all modules."""
    for _ in range(6000):
        client.sendall(formats.header(formats.CLOSE, 0, 15, 0, 0))
        if select.select([serve.stderr], [], [], 0.01)[0]:
            return os.read(serve.stderr.fileno(), 4096).decode()
    return ""


def try_pages(program, verifiers, count, pieces, before=None):
    """So many pages in pieces, each once what came before has been judged, of which the last has a fault, and then nothing: it is judged and
    told, and none waits for a thread that sleeps."""
    with tempfile.TemporaryDirectory() as folder:
        path = os.path.join(folder, "s")
        words = [program, "serve", "--socket", path, "--connections", "2", "--verifiers", str(verifiers)]
        serve = subprocess.Popen(words, stdout=subprocess.PIPE, stderr=subprocess.PIPE, text=True, preexec_fn=before)
        with connected(path) as first, connected(path) as second:
            first.sendall(formats.header(1, 0, 7, 1024 * (count + 1), 0))
            for piece in pieces:
                first.sendall(piece)
                time.sleep(0.5 if piece is not pieces[-1] else 0)
            told = told_while(second, serve)
        out, err = serve.communicate(timeout=60)
        came = told, out.splitlines()[:2], err, serve.returncode
    wanted = "module 7 refused\n", [f"module 7: refused, word {1024 * (count - 1)} rule 1", "connection 0: fault 9"], "", 1
    if came != wanted:
        wrong("slow", f"{count} pages, and then nothing, with {verifiers} verifiers", came, wanted)


def refused_last(count, module=7):
    """The messages of so many pages, of which the last is refused."""
    return formats.pages(2, module, NOP * (1024 * (count - 1)) + bytes(4096))


# HELP: module M refused A connection's thread has seen that module M is refused; the report tells why.
# COMMANDS: A slow or silent client holds up no other connection's module, but the report waits for all, at most `--seconds`.
def try_slow(program):
    for verifiers in (1, 2, 8):
        try_pages(program, verifiers, 2, refused_last(2))
        for count in (33, 64, 65, 129, 200) * 3:
            try_pages(program, verifiers, count, [b"".join(refused_last(count))])
    # On one core a verifier puts many pages into a lane before its sequencer comes to look.
    for count in (65, 129, 200) * 5:
        try_pages(program, 1, count, [b"".join(refused_last(count))], on_one_core)
    print("slow: the last of 2 to 200 pages, refused, is judged and told while its client sends nothing more, by 1, 2 and 8 verifiers and on one core")


# ---- path


def try_taken_path(program):
    """A path at which somebody listens already: it stays theirs."""
    with tempfile.TemporaryDirectory() as folder, socket.socket(socket.AF_UNIX) as other:
        path = os.path.join(folder, "s")
        other.bind(path)
        other.listen()
        words = [program, "serve", "--socket", path, "--connections", "1", "--seconds", "1"]
        came = subprocess.run(words, capture_output=True, text=True, timeout=60)
        wanted = 3, "", f"lfiload: cannot listen\n  {path}: Address already in use\n"
        if (came.returncode, came.stdout, came.stderr) != wanted:
            wrong("path", "where somebody listens", came, wanted)
        with connected(path):
            other.settimeout(60)
            other.accept()[0].close()


def try_other_socket(program, kind):
    """A path at which a socket stands that takes no connections: one of messages by themselves, or one that nobody holds any more."""
    with tempfile.TemporaryDirectory() as folder:
        path = pathlib.Path(folder, "s")
        with socket.socket(socket.AF_UNIX, kind) as other:
            other.bind(str(path))
            if kind == socket.SOCK_STREAM:
                other.close()
            words = [program, "serve", "--socket", path, "--connections", "1", "--seconds", "1"]
            came = subprocess.run(words, capture_output=True, text=True, timeout=60)
            wanted = 3, "", f"lfiload: cannot listen\n  {path}: Address already in use\n", True
            if (came.returncode, came.stdout, came.stderr, path.is_socket()) != wanted:
                wrong("path", "where another socket stands", (came, path.is_socket()), wanted)


# COMMANDS: A file that is already at the socket's path stays, and `serve` then can't listen there.
# COMMANDS: After `cannot listen` it begins with the path.
def try_standing(program):
    """Where something else stands at the path, also a link to nothing, it is told and left."""
    with tempfile.TemporaryDirectory() as folder:
        for name in "file", "folder", "link", "dangling":
            path = pathlib.Path(folder, name)
            {"file": path.touch, "folder": path.mkdir, "link": lambda: path.symlink_to("file"), "dangling": lambda: path.symlink_to("none")}[name]()
            before = path.lstat()
            words = [program, "serve", "--socket", path, "--connections", "1", "--seconds", "1"]
            came = subprocess.run(words, capture_output=True, text=True, timeout=60)
            stays = os.path.lexists(path) and path.lstat()[:4] == before[:4] and not os.path.lexists(os.path.join(folder, "none"))
            wanted = 3, "", f"lfiload: cannot listen\n  {path}: Address already in use\n", True
            if (came.returncode, came.stdout, came.stderr, stays) != wanted:
                wrong("path", f"a {name} stands there", (came, stays), wanted)


def try_one_path(program, kind):
    """What stands at the path of `serve` once its socket was moved: a file or a socket of another one's, or a link to the socket."""
    with tempfile.TemporaryDirectory() as folder, socket.socket(socket.AF_UNIX) as other:
        path, moved = (pathlib.Path(folder, name) for name in ("s", "moved"))
        # The path goes once the last client was taken.
        serve = subprocess.Popen([program, "serve", "--socket", path, "--connections", "2"], stdout=subprocess.PIPE, text=True)
        first = connected(str(path))
        path.rename(moved)
        {"link": lambda: path.symlink_to("moved"), "file": lambda: path.write_text("another one's"), "socket": lambda: other.bind(str(path))}[kind]()
        with first, connected(str(moved)):
            first.sendall(formats.stream(0, RET))
        stands = {"link": path.is_symlink, "file": path.is_file, "socket": path.is_socket}[kind]
        came = serve.communicate(timeout=60)[0], serve.returncode, stands()
    wanted = "module 0: complete, 1 words\nstrays 0\n", 0, True
    if came != wanted:
        wrong("path", f"a {kind} that came to stand there", came, wanted)


def try_changed_socket(program):
    """The socket of `serve` is changed in all but what it is: others may connect, it has other times, another owner and another name. It goes
    all the same."""
    with tempfile.TemporaryDirectory() as folder:
        path, other = (pathlib.Path(folder, name) for name in ("s", "other"))
        serve = subprocess.Popen([program, "serve", "--socket", path, "--connections", "2"], stdout=subprocess.PIPE, text=True)
        with connected(str(path)) as client:
            path.chmod(0o666)
            os.utime(path, (1, 1))
            os.link(path, other)
            if os.geteuid() == 0:
                os.chown(path, 12345, 12345)
            client.sendall(formats.stream(0, RET))
            connected(str(path)).close()
        came = serve.communicate(timeout=60)[0], serve.returncode, path.exists()
    wanted = "module 0: complete, 1 words\nstrays 0\n", 0, False
    if came != wanted:
        wrong("path", "a socket whose rights, times and owner were changed", came, wanted)


def try_path(program):
    try_changed_socket(program)
    try_standing(program)
    for kind in ("file", "link", "socket"):
        try_one_path(program, kind)
    try_taken_path(program)
    for kind in (socket.SOCK_DGRAM, socket.SOCK_STREAM):
        try_other_socket(program, kind)
    print(
        "path: a socket whose rights, times and owner were changed is gone; a file, a link and a socket that came to stand at the path of `serve` are still there, and so are the sockets of somebody "
        "who listens there, who takes messages there, and who went, and a file, a folder and links that stood there before"
    )


# ---- faulty


def sends_until_refused(client):
    """Whether a client's sending comes to an error, and not to a wait without end."""
    client.settimeout(20)
    try:
        while True:
            client.sendall(bytes(1 << 16))
    except (BrokenPipeError, ConnectionResetError):
        return True
    except TimeoutError:
        return False


# COMMANDS: A connection is shut down at its stream's end or fault.
def try_faulty(program):
    """A client whose stream has a fault, and that sends on while another one stays: its connection is closed, so it needn't wait."""
    with tempfile.TemporaryDirectory() as folder:
        path = os.path.join(folder, "s")
        words = [program, "serve", "--socket", path, "--connections", "2"]
        serve = subprocess.Popen(words, stdout=subprocess.PIPE, stderr=subprocess.PIPE, text=True)
        with connected(path) as first:
            is_refused = sends_until_refused(first)
        with connected(path) as second:
            second.sendall(formats.stream(1, RET))
        came = is_refused, *serve.communicate(timeout=60), serve.returncode
    wanted = True, "module 1: complete, 1 words\nconnection 0: fault 1\nstrays 0\n", "", 1
    if came != wanted:
        wrong("faulty", "a client that sends on", came, wanted)
    print("faulty: a client that sends on after its stream's fault comes to an error at once")


# ---- squatter


def squat(client, serve):
    """Opens all modules, sends a word that is refused, and then messages that no module takes, until it is told of the refusal: so all before it
    was read. Answers how many bytes these are, and how many messages were passed over."""
    text = b"".join(formats.header(1, 0, module, 1, 0) for module in range(16))
    text += b"".join(formats.pages(2, 15, bytes(4))) + formats.header(formats.CLOSE, 0, 15, 0, 0)
    client.sendall(text)
    for strays in range(1, 3000):
        client.sendall(formats.header(formats.CLOSE, 0, 15, 0, 0))
        if select.select([serve.stderr], [], [], 0.01)[0]:
            line = os.read(serve.stderr.fileno(), 4096).decode()
            if line != "module 15 refused\n":
                wrong("squatter", "the errors", line, "module 15 refused")
            return len(text) + 12 * strays, strays
    wrong("squatter", "the errors", "", "module 15 refused")


# HELP: module M: from connection C The connection that opened it first, from which it is loaded.
# HELP: message at byte B Where the message begins that has the fault or isn't whole, in the bytes of the connection, counted from 0; and
#   the path of a file.
# HELP: connection C: strays N How many of the strays are its own.
def try_squatter(program):
    with tempfile.TemporaryDirectory() as folder:
        path = os.path.join(folder, "s")
        words = [program, "serve", "--socket", path, "--connections", "2", "--explain"]
        serve = subprocess.Popen(words, stdout=subprocess.PIPE, stderr=subprocess.PIPE, text=True, cwd=folder)
        with connected(path) as first:
            sent, strays = squat(first, serve)
            with connected(path) as second:
                second.settimeout(60)
                second.sendall(formats.stream(3, RET))
                second.shutdown(socket.SHUT_WR)
                # It is shut down once all of it was read.
                second.recv(1)
        out, err = serve.communicate(timeout=60)
    whose = "".join(f"module {module}: from connection 0\n" for module in range(16))
    wanted = f"{whose}connection 0: input ended too early\n  message at byte {sent}\nconnection 0: strays {strays}\nconnection 1: strays 3\n"
    if not out.endswith(wanted) or f"\nstrays {strays + 3}\n" not in out or err or serve.returncode != 1:
        wrong("squatter", f"status {serve.returncode}, {err!r}", out, wanted)
    print("squatter: a client that opens all modules before another one: whose is what, and where each ended")


# ---- storm


def one_storm(program, number):
    """One storm; answers the most memory of the program, in KiB."""
    source = random.Random(f"storm {number}")
    texts = [formats.stream(module, NOP * source.randrange(5000) + RET, *source.choice(OPENS)) for module in range(8)]
    texts[1] = texts[1][: source.randrange(len(texts[1]))]
    texts[2] = b""
    texts[3] = source.randbytes(source.randrange(200))
    how = {1: "resets", 4: "reads nothing"}
    with tempfile.TemporaryDirectory() as folder:
        path = os.path.join(folder, "s")
        serve = subprocess.Popen(
            [program, "serve", "--socket", path, "--connections", "8", "--verifiers", str(1 + number % 4)],
            stdout=subprocess.PIPE, stderr=subprocess.PIPE, text=True, cwd=folder,
        )
        clients = [
            threading.Thread(target=send, args=(path, text, random.Random(f"{number} {c}"), how.get(c, ""), source.random() / 100))
            for c, text in enumerate(texts)
        ]
        for client in clients:
            client.start()
        out, err = serve.stdout.read(), serve.stderr.read()
        _, status, used = os.wait4(serve.pid, 0)
        serve.returncode = os.waitstatus_to_exitcode(status)
        for client in clients:
            client.join()
        if os.path.exists(path):
            wrong("storm", f"number {number}", "the path is there", "gone")
    report = collections.Counter(out.splitlines())
    shares = [connection(text, set(range(16))) for text in texts]
    wanted = collections.Counter()
    for told, fault, _ in shares:
        for module, share in told.items():
            wanted[f"module {module}: {outcome(share)[0]}"] += 1
    faults = sorted(str(fault) for _, fault, _ in shares if fault)
    wanted[f"strays {sum(strays for *_, strays in shares)}"] += 1
    told_faults = sorted(line.rpartition(" ")[2] for line in report if line.startswith("connection "))
    told_rest = collections.Counter({line: count for line, count in report.items() if not line.startswith("connection ")})
    if told_rest != wanted or told_faults != faults or serve.returncode != 1:
        wrong("storm", f"number {number}, status {serve.returncode}, {err!r}", out, (sorted(wanted), faults))
    return used.ru_maxrss


# COMMANDS: no other connection's module changes.
def try_storm(program, times):
    most = [one_storm(program, number) for number in range(times)]
    print(f"storm: {times} of eight clients: as the reference implementation; most memory {min(most)} to {max(most)} KiB")
