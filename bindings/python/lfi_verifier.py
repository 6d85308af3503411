"""The verifier of A64 code for Lightweight Fault Isolation, from Python: lfi_verifier, the C library, by ctypes.

    import lfi_verifier

    lfi_verifier.verify(code)                    # nothing where the code is lawful, else an exception
    try:
        lfi_verifier.verify(code, profile=2)
    except lfi_verifier.Refused as refused:
        print(lfi_verifier.explain(code, refused.fault, profile=2))

The shared library is the one that LFI_VERIFIER_LIB names, as a file or as the folder in which it lies, or else the one that the
system finds. Its interface has to be VERSION. Bytes that can still be written (a bytearray, a memoryview, a map of a file) are
copied first, and the copy is judged; `bytes` are judged where they lie. Rules, profiles, streams and faults are those of
docs/PROFILE.md; what the calls promise is in docs/C.md. Nothing of this module is proved.
"""

from __future__ import annotations

import ctypes
import enum
import os
import pathlib
import threading
from typing import List, NamedTuple, Optional, Tuple, Union

VERSION = 7
MAX_WORDS, MODULES = 4_194_304, 16
ROOM = 2_048  # the most bytes of a text
MOST_MENDED = 8  # the most words of a mend
Buffer = Union[bytes, bytearray, memoryview]


class Status(enum.IntEnum):
    """What a call found, or why it found nothing."""

    LAWFUL, REFUSED, BAD_LENGTH, INCOMPLETE, BAD_STATE, UNKNOWN_PROFILE, UNKNOWN_MODULE, NO_ROOM = range(8)


class Reason(enum.IntEnum):
    """How a module ended: by its Close, by its stream's fault, by a page that isn't due."""

    CLOSED, LOST, PAGE_FAULT = range(1, 4)


class Fault(NamedTuple):
    """The first word that breaks a rule, counted from 0, and the least rule that it breaks, 1 to 10."""

    word: int
    rule: int


class Violation(Exception):
    """Why code isn't a lawful module."""


class Refused(Violation):
    """A word breaks a rule."""

    def __init__(self, fault: Fault) -> None:
        super().__init__(f"word {fault.word} rule {fault.rule}")
        self.fault = fault

    def __reduce__(self) -> Tuple[type, Tuple[Fault]]:
        return type(self), (self.fault,)


class BadLength(Violation):
    """The code isn't 1 to 4,194,304 whole words."""


class Open(NamedTuple):
    """A module opens: its words, the word at which it is entered, its profile, the bytes of a full page of it."""

    module: int
    words: int
    entry: int
    profile: int
    page_bytes: int


class Code(NamedTuple):
    """Code of a module, from a byte of it on; whether a page is whole with it; the first fault of all that came, or None."""

    module: int
    offset: int
    data: bytes
    ends_page: bool
    fault: Optional[Fault]


class Stray(NamedTuple):
    """A message of a module is passed over."""

    module: int


class End(NamedTuple):
    """A module has ended. LAWFUL: it is complete and lawful; REFUSED, with its first fault; else INCOMPLETE.

    `number` is the stream's fault, where the reason is LOST, and the page's index, where it is PAGE_FAULT; else 0.
    """

    module: int
    words: int
    pages: int
    reason: Reason
    number: int
    verdict: Status
    fault: Optional[Fault]


class StreamFault(NamedTuple):
    """The stream's fault, 1 to 10: nothing after it is read."""

    number: int


Event = Union[Open, Code, Stray, End, StreamFault]


class _Fault(ctypes.Structure):
    _fields_ = [("word", ctypes.c_uint32), ("rule", ctypes.c_uint32)]


class _Event(ctypes.Structure):
    _fields_ = [
        *((name, ctypes.c_uint32) for name in ("kind", "module", "words", "entry", "profile", "page_bytes", "pages", "reason",
                                               "number", "ended", "verdict")),
        ("fault", _Fault), ("offset", ctypes.c_size_t)]


_Stream = ctypes.c_uint64 * 105  # 840 bytes of plain numbers, which the calls alone read


def _place() -> str:
    """The library that is named, by its whole path; else its name, by which the system looks for it."""
    named, name = os.environ.get("LFI_VERIFIER_LIB"), f"liblfi_verifier.so.{VERSION}"
    if not named:
        return name
    place = pathlib.Path(named)
    return str((place / name if place.is_dir() else place).resolve())


def _library() -> ctypes.CDLL:
    place = _place()
    try:
        found = ctypes.CDLL(place)
    except OSError as why:
        raise ImportError(f"{why}; name the shared library, or its folder, by LFI_VERIFIER_LIB") from why
    if found.lfi_version() != VERSION:
        raise ImportError(f"{place} has interface {found.lfi_version()}, and this module is for {VERSION}")
    u32, size, there = ctypes.c_uint32, ctypes.c_size_t, ctypes.POINTER
    found.lfi_verify.argtypes = [ctypes.c_char_p, size, u32, there(_Fault)]
    found.lfi_explain.argtypes = [u32, u32, u32, ctypes.c_char_p, size, there(_Fault), ctypes.c_char_p, size, there(size)]
    found.lfi_mend.argtypes = [u32, ctypes.c_char_p, size, there(_Fault), there(u32), size, there(size)]
    found.lfi_stream_init.argtypes = [there(_Stream), u32]
    found.lfi_stream_next.argtypes = [there(_Stream), ctypes.c_void_p, size, there(_Event)]
    found.lfi_stream_end.argtypes = [there(_Stream), there(_Event)]
    for call in found.lfi_verify, found.lfi_explain, found.lfi_mend, found.lfi_stream_init, found.lfi_stream_end:
        call.restype = u32
    found.lfi_stream_next.restype = size
    return found


_LIBRARY = _library()


def _number(value: int) -> int:
    """A number that a C call takes: what doesn't fit is one that no profile, module, count of words or word has."""
    return value if 0 <= value < 2**32 else 2**32 - 1


def _bytes(data: Buffer) -> bytes:
    """All bytes of a buffer: `bytes` themselves, and a copy of another one. TypeError: it is none."""
    return data if type(data) is bytes else bytes(memoryview(data))


def verify(data: Buffer, profile: int = 1) -> None:
    """Judges the code of a whole module. Returns where it is lawful; else raises Refused or BadLength.

    ValueError: there is no such profile.
    """
    code, fault = _bytes(data), _Fault()
    status = Status(_LIBRARY.lfi_verify(code, len(code), _number(profile), fault))
    if status is Status.REFUSED:
        raise Refused(Fault(fault.word, fault.rule))
    if status is Status.BAD_LENGTH:
        raise BadLength("bad length")
    if status is not Status.LAWFUL:
        raise ValueError(status.name)


def explain(data: Buffer, fault: Fault, profile: int = 1, module: int = 0) -> str:
    """Tells a fault of this code, what its rule asks and how it is mended, as `lfiload check --explain` does.

    ValueError: the fault is none that the code can have, or there is no such profile or module.
    """
    code, text, count = _bytes(data), ctypes.create_string_buffer(ROOM), ctypes.c_size_t()
    found = _Fault(_number(fault.word), _number(fault.rule))
    status = Status(_LIBRARY.lfi_explain(_number(profile), _number(module), _number(len(code) // 4), code, len(code), found, text, ROOM, count))
    if status is not Status.LAWFUL:
        raise ValueError(status.name)
    return text.raw[: count.value].decode("ascii")


def mend(data: Buffer, fault: Fault, profile: int = 1) -> Optional[List[int]]:
    """The words that stand in the place of the word at this fault, which keep the rules wherever they stand; None where there is no mend.

    For a fault of rule 10 they stand before the word, which stays; or, at the code's end, after it.
    ValueError: the fault is none that the code can have, or there is no such profile.
    """
    code, words, count = _bytes(data), (ctypes.c_uint32 * MOST_MENDED)(), ctypes.c_size_t()
    found = _Fault(_number(fault.word), _number(fault.rule))
    status = Status(_LIBRARY.lfi_mend(_number(profile), code, len(code), found, words, MOST_MENDED, count))
    if status is Status.REFUSED:
        return None
    if status is not Status.LAWFUL:
        raise ValueError(status.name)
    return list(words[: count.value])


def _told(event: _Event, data: bytes) -> Optional[Event]:
    """What an event tells; None where it is nothing that a host has to do."""
    fault = Fault(event.fault.word, event.fault.rule) if event.fault.rule else None
    if event.kind == 1:
        return Open(event.module, event.words, event.entry, event.profile, event.page_bytes)
    if event.kind == 2:
        if event.verdict > Status.REFUSED:
            raise RuntimeError("the code wasn't judged")
        return Code(event.module, event.offset, data, event.ended == 1, fault)
    if event.kind == 3:
        return Stray(event.module)
    if event.kind == 4:
        return End(event.module, event.words, event.pages, Reason(event.reason), event.number, Status(event.verdict), fault)
    if event.kind == 5:
        return StreamFault(event.number)
    if event.kind:
        raise RuntimeError("the numbers are those of no stream")
    return None


class Stream:
    """A connection's stream, of which some bytes came. Its calls may be made by any thread; they wait for each other."""

    def __init__(self) -> None:
        self._numbers, self._is_over, self._turn = _Stream(), False, threading.Lock()
        if _LIBRARY.lfi_stream_init(self._numbers, 1):
            raise RuntimeError("no stream begins")

    def read(self, piece: Buffer) -> List[Event]:
        """Goes on in the next bytes, cut in any way, and tells what they bring. After the stream's fault nothing is read."""
        whole, at, events = _bytes(piece), 0, []
        start = ctypes.cast(ctypes.c_char_p(whole), ctypes.c_void_p).value or 0
        with self._turn:
            while at < len(whole) and not self._is_over:
                event = _Event()
                used = _LIBRARY.lfi_stream_next(self._numbers, start + at, len(whole) - at, event)
                told = _told(event, whole[at : at + used] if event.kind == 2 else b"")
                self._is_over = isinstance(told, StreamFault) or used == 0
                events += [told] if told else []
                at += used
        return events

    def end(self) -> List[Event]:
        """Tells the end of the input: a fault, where there is one that wasn't told, and the modules that it loses."""
        events: List[Event] = []
        with self._turn:
            self._is_over = True
            while True:
                event = _Event()
                _LIBRARY.lfi_stream_end(self._numbers, event)
                told = _told(event, b"")
                if told is None:
                    return events
                events.append(told)
