"""Streams and image files, as docs/PROFILE.md has them, put together."""

import struct

MODULES, PAGE, LARGE_PAGE, MOST_WORDS = 16, 4096, 16_384, 4_194_304
PROFILES = {1: 1, 4: 2}  # the profile that an Open of this kind is of
SIZES = {2: PAGE, 5: LARGE_PAGE}  # the bytes of a full page of this kind
OPENED = {0: 2, 2: 5}  # the kind of the pages of a module, by the second byte of its Open
CLOSE = 3


def header(kind, second, module, a, b):
    """The 12 bytes that a message begins with."""
    return struct.pack("<BBHII", kind, second, module, a, b)


def pages(kind, module, code, size=None):
    """The pages of a module's code, as messages of this kind, each of so many bytes: by default those of a full page."""
    size = size or SIZES[kind]
    parts = [code[at : at + size] for at in range(0, len(code), size)]
    return [header(kind, 0, module, index, len(part)) + part for index, part in enumerate(parts)]


def messages(module, code, profile=1, large=False, entry=0):
    """The messages of a module of this code: its Open, its pages, its Close."""
    kind, second = {1: 1, 2: 4}[profile], 2 if large else 0
    return [header(kind, second, module, len(code) // 4, entry), *pages(OPENED[second], module, code), header(CLOSE, 0, module, 0, 0)]


def stream(module, code, profile=1, large=False, entry=0):
    """A stream of one module of this code."""
    return b"".join(messages(module, code, profile, large, entry))


def base(module):
    """Where a module's slot begins."""
    return (2 * module + 1) << 32


def image(module, entry, code, profile=1):
    """The file of a module's image."""
    return struct.pack("<4sIIIQ", b"LFI1", len(code) // 4, entry, profile, base(module)) + code


def code_of(*words):
    """Words as bytes, the lowest first."""
    return struct.pack(f"<{len(words)}I", *words)


def words_of(code):
    return struct.unpack(f"<{len(code) // 4}I", code)
