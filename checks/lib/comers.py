"""Who comes to a program that checks/refused_growth carries out: clients of its socket, and one who writes to its pipe."""

import os
import pathlib
import socket
import threading
import time

from lib import formats
from lib.cases import NOP, RET

STREAM = str(pathlib.Path(__file__).resolve().parent.parent.parent / "examples" / "one_ret.stream")
# Each of two clients sends a stream of a module of its own that takes several reads.
BOTH_WORDS = (100_001, 100_002)
BOTH = [formats.stream(module, NOP * (count - 1) + RET) for module, count in enumerate(BOTH_WORDS)]
STAY_SECONDS = 3


class Clients(threading.Thread):
    """Two clients of a socket: the first sends the example stream, the second nothing. Both stay
    until the program has ended, or for some seconds; or they go once they have sent."""

    def __init__(self, path, stay):
        super().__init__()
        self.path = path
        self.stay = stay
        self.ended = threading.Event()
        self.went, self.left = False, float("inf")

    def connect(self):
        """A client, once it can connect; none where the program has ended."""
        while not self.ended.is_set():
            client = socket.socket(socket.AF_UNIX)
            try:
                client.connect(self.path)
                return client
            except OSError:
                client.close()
                time.sleep(0.001)
        return None

    def texts(self):
        """What each sends."""
        with open(STREAM, "rb") as stream:
            return [stream.read(), b""]

    def leave(self, client):
        """A client that sent all goes."""
        client.close()

    def run(self):
        texts = self.texts()
        clients = []
        for text in texts:
            client = self.connect()
            if client is None:
                break
            clients.append(client)
            try:
                client.sendall(text)
            except OSError:
                pass
            if not self.stay:
                self.leave(client)
        if not self.stay:
            return
        self.went = not self.ended.wait(STAY_SECONDS)
        self.left = time.monotonic()
        for client in clients:
            client.close()


class PipeEnd:
    """One who writes to a pipe."""

    def __init__(self, path):
        self.end = os.open(path, os.O_RDWR)

    def sendall(self, text):
        os.write(self.end, text)

    def close(self):
        os.close(self.end)


class Silent(Clients):
    """The same, of which the first sends nothing."""

    def texts(self):
        return super().texts()[::-1]


class Writer(Clients):
    """One who writes the example stream to a pipe, and stays as clients do."""

    def texts(self):
        return super().texts()[:1]

    def connect(self):
        return PipeEnd(self.path)


class Both(Clients):
    """The same, of which each sends a long stream of its own. The second comes once the first is read to its end and closed: no call of
    one thread goes by uncounted while another one steps over a breakpoint."""

    def texts(self):
        return BOTH

    def leave(self, client):
        try:
            client.shutdown(socket.SHUT_WR)
            client.recv(1)
        except OSError:
            pass
        client.close()


OTHERS = {"clients": Clients, "silent": Silent, "both": Both, "writer": Writer}
