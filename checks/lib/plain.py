"""The reference implementation of streams, reports and image files, plainly: over whole texts, one after another.

It is written from docs/PROFILE.md and the words of docs/GLOSSARY.md, and shares no line with the program. The rules are those of
checks/second_verifier.
"""

import collections
import itertools
import struct

from lib import tree
from lib.formats import MODULES, MOST_WORDS, OPENED, PAGE, PROFILES, SIZES, base, image, words_of

RULES = tree.script("second_verifier")
KIND, SECOND, MODULE, LENGTH, NUMBERS, WORDS, ENTRY, ENDED = 1, 2, 3, 4, 5, 6, 7, 9


# PROFILE: A stream is a list of messages with nothing between them: a header of 12 bytes, all numbers little-endian and unsigned, and
#   after a Page's its payload.
# PROFILE: The first seven of a stream are a header's, judged once its 12 bytes are there, in this order.
def header_fault(kind, second, module, a, b):
    """The first fault that a header shows, or None."""
    tests = [
        (KIND, kind not in (1, 2, 3, 4, 5)),
        (SECOND, second not in ((0, 2) if kind == 4 else (0,))),
        (MODULE, module >= MODULES),
        (LENGTH, kind in SIZES and (b % 4 != 0 or not 4 <= b <= SIZES[kind])),
        (NUMBERS, kind == 3 and (a, b) != (0, 0)),
        (WORDS, kind in PROFILES and not 1 <= a <= MOST_WORDS),
        (ENTRY, kind in PROFILES and b >= a),
    ]
    return next((fault for fault, shown in tests if shown), None)


def cut(text):
    """The messages of a text, each (kind, second byte, module, a, b, payload), with None for a payload that isn't whole; the fault of
    a header, or None; and whether the text ends inside of a message."""
    messages, at = [], 0
    while len(text) - at >= 12:
        kind, second, module, a, b = struct.unpack_from("<BBHII", text, at)
        fault = header_fault(kind, second, module, a, b)
        if fault:
            return messages, fault, True
        at += 12
        payload = text[at : at + b] if kind in SIZES else b""
        if kind in SIZES and len(payload) < b:
            return messages + [(kind, second, module, a, b, None)], None, True
        messages.append((kind, second, module, a, b, payload))
        at += len(payload)
    return messages, None, at < len(text)


class Share:
    """What one module got of the connection that claimed it."""

    def __init__(self, words, entry, profile, kind):
        self.words, self.entry, self.profile, self.kind, self.pages, self.end = words, entry, profile, kind, [], None
        self.size = SIZES[kind]

    # PROFILE: with P bytes a page, 4,096 or 16,384, page p of a module of n words has min(P, 4n - P * p) bytes, and there are 4n / P
    #   pages, rounded up.
    def bytes_due(self, index):
        """How many bytes page `index` has; 0 where there is none."""
        return max(0, min(self.size, 4 * self.words - self.size * index))

    # PROFILE: A page that isn't the one due, or hasn't its length, or is of the other kind, ends its module with a page fault.
    def take(self, kind, index, length, payload):
        """A page or a Close, which comes while the module is open."""
        if kind == 3:
            self.end = ("close",)
        elif kind != self.kind or index != len(self.pages) or length != self.bytes_due(index):
            self.end = ("page fault", index)
        elif payload is not None:
            self.pages.append(payload)


# PROFILE: The first connection that opens a module has it, for the whole run. Of all other connections, and once it has ended, its
#   messages are strays: they are counted and passed over.
# PROFILE: A fault of the connection, its first, ends all its modules that are open.
def connection(text, claimed):
    """What a connection makes for which these modules are claimed: the modules' shares, its fault, its strays."""
    messages, fault, inside = cut(text)
    shares, strays = {}, 0
    for kind, second, module, a, b, payload in messages:
        share = shares.get(module)
        if kind in PROFILES and share is None and module in claimed:
            shares[module] = Share(a, b, PROFILES[kind], OPENED[second])
        elif kind not in PROFILES and share is not None and share.end is None:
            share.take(kind, a, b, payload)
        else:
            strays += 1
    if fault is None and (inside or any(share.end is None for share in shares.values())):
        fault = ENDED
    for share in shares.values():
        share.end = share.end or ("lost", fault)
    return shares, fault, strays


def first_fault(words, total, profile=1):
    """The first fault of words that begin a module of so many, by a profile: (place, rule), or None."""
    need = None
    for k, word in enumerate(words):
        i = RULES.decode(word, profile)
        rule = RULES.broken(i, k, total)
        kept, need = RULES.after(i, need, profile)
        if rule or not kept or k + 1 == total and need:
            return k, rule or 10
    return None


# PROFILE: What is told of a module, the first of these that applies: *refused* with its first fault, by the pages that came (the last
#   word's need counts once all words are there); by a Close, *complete* or *incomplete*; *lost* by its connection's fault; *page
#   fault*; *no memory*.
def outcome(share):
    """What is told of a module, and its code where it is complete."""
    code = b"".join(share.pages)
    fault = first_fault(words_of(code), share.words, share.profile)
    if fault:
        return "refused, word {} rule {}".format(*fault), None
    kind, *number = share.end
    if kind == "close" and len(code) == 4 * share.words:
        return f"complete, {share.words} words", code
    if kind == "close":
        return f"incomplete, {len(share.pages)} of {-(-share.words * 4 // share.size)} pages", None
    return (f"lost, fault {number[0]}" if kind == "lost" else f"page fault, index {number[0]}"), None


def report(texts, claims):
    """The report on these texts, where module m is claimed by the connection claims[m]; with it the images and the status."""
    lines, images, faults, strays = {}, {}, [], 0
    for number, text in enumerate(texts):
        shares, fault, more = connection(text, {m for m, c in claims.items() if c == number})
        strays += more
        faults += [f"connection {number}: fault {fault}"] if fault else []
        for module, share in shares.items():
            told, code = outcome(share)
            lines[module] = f"module {module}: {told}"
            if code is not None:
                images[f"module-{module:02}.img"] = image(module, share.entry, code, share.profile)
    out = [lines[module] for module in sorted(lines)] + faults + [f"strays {strays}"]
    well = not faults and len(images) == len(lines)
    return "".join(f"{line}\n" for line in out), images, 0 if well else 1


def reports(texts):
    """All reports that may come: a module that several connections open is claimed by any one of them."""
    openers = collections.defaultdict(list)
    for number, text in enumerate(texts):
        for kind, _, module, *_ in cut(text)[0]:
            if kind in PROFILES and number not in openers[module]:
                openers[module].append(number)
    choices = [[(module, number) for number in numbers] for module, numbers in openers.items()]
    return [report(texts, dict(choice)) for choice in itertools.product(*choices)]


# PROFILE: An image's header is judged once its 24 bytes are there (5, then 1 to 4), then page by page 5 or 7, at last 6.
def image_fault(file):
    """The number of an image file's fault with what follows it, and 0 where it has none."""
    if len(file) < 24:
        return 5, ""
    magic, count, entry, profile, at = struct.unpack_from("<4sIIIQ", file)
    faults = [
        (1, magic != b"LFI1"),
        (2, profile not in (1, 2)),
        (3, not 1 <= count <= MOST_WORDS or entry >= count),
        (4, at not in map(base, range(MODULES))),
    ]
    number = next((number for number, found in faults if found), 0)
    return (number, "") if number else image_code_fault(file[24:], count, profile)


def image_code_fault(code, count, profile):
    """The same of the code, which is judged page by page as it is read."""
    whole = len(code) >= 4 * count
    there = 4 * count if whole else len(code) // PAGE * PAGE
    fault = first_fault(words_of(code[:there]), count, profile)
    if fault:
        return 7, ", word {} rule {}".format(*fault)
    return (5, "") if not whole else (6, "") if len(code) > 4 * count else (0, "")
