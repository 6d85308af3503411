"""What a host relies on, with values of docs/PROFILE.md and the examples: `python3 -m unittest`, in this folder."""

import array
import ctypes
import mmap
import pathlib
import pickle
import re
import sys
import tempfile
import threading
import tracemalloc
import typing
import unittest
from unittest import mock

import lfi_verifier
from lfi_verifier import BadLength, Code, End, Fault, Open, Reason, Refused, Status, Stray, Stream, StreamFault, Violation

TOP = pathlib.Path(__file__).resolve().parent.parent.parent
EXAMPLES, HEADER = TOP / "examples", TOP / "include" / "lfi_verifier.h"
LIBRARY = lfi_verifier._LIBRARY
NOP, RET, SVC = 0xD503201F, 0xD65F03C0, 0xD4000001
ACQUIRE, BASE_WRITTEN = 0xC8DFFE40, 0xAA0003F5  # ldar x0, [x18], an instruction of profile 2 alone; mov x21, x0, which breaks rule 3

# A profile, a module, its words, its first fault, and the text that crates/tests_profile (explained/rules.rt) and
# checks/runs/explain.runs have of the same words: by profile 2; of the word before; of the module's words, and of the last slot; of a word
# two before.
EXPLAINED = (
    (2, 3, (0xC8DFFC20, NOP), Fault(0, 2),
     "word 0 rule 2\n"
     "  0x0000000700010000  c8dffc20  ldar x0, [x1]\n"
     "  a load or store may go only through x18, x21, x23, x24 or sp at an immediate offset, through sp and change it, or through x21 by a"
     " W register with uxtw and no shift; this one goes through x1\n"
     "  mend: in its place\n    add x18, x21, w1, uxtw\n    ldar x0, [x18]"),
    (1, 0, (0xF94006BE, NOP, RET), Fault(1, 10),
     "word 1 rule 10\n"
     "  0x0000000100010000  f94006be  ldr x30, [x21, #8]\n"
     "  0x0000000100010004  d503201f  nop\n"
     "  a load of a table entry into x30 has to be followed by blr x30; this word isn't that\n"
     "  mend: put blr x30 right after the load, and before the load what stood between them"),
    (1, 15, (0x14000002, NOP), Fault(0, 8),
     "word 0 rule 8\n"
     "  0x0000001f00010000  14000002  b .+8\n"
     "  a direct branch may go only to a word of the module; it has 2, and this one goes to word 2\n"
     "  mend: let it go to a word of the module; code outside is called by ldr x30, [x21, #8j], j being 0 to 511, with blr x30 right"
     " after it"),
    (1, 0, (0x14000801, *[NOP] * 2_048), Fault(0, 8),
     "word 0 rule 8\n"
     "  0x0000000100010000  14000801  b .+8196\n"
     "  a direct branch may go only to a word of the module; it has 2049, and this one goes to word 2049\n"
     "  mend: let it go to a word of the module; code outside is called by ldr x30, [x21, #8j], j being 0 to 511, with blr x30 right"
     " after it"),
    (2, 0, (0xD10043FF, NOP, 0xF94006BE, 0xD63F03C0, 0xF90003E0, RET), Fault(2, 10),
     "word 2 rule 10\n"
     "  0x0000000100010000  d10043ff  sub sp, sp, #16\n"
     "  0x0000000100010008  f94006be  ldr x30, [x21, #8]\n"
     "  a move of sp by an immediate has to be followed by a load or store at [sp] within 4 words, with only calm words before it; this"
     " word, with 3 of the 4 left, isn't that\n"
     "  mend: put ldr xzr, [sp] right after the move, or let a pre- or post-indexed access move sp"),
)
# A profile, words, their first fault, and the mend that checks/c_callers/calls.c and crates/tests_mends (rows.rt) have of it.
MENDED = (
    # sub sp, sp, #16; ldr x0, [x1]: ldr xzr, [sp]; ldr x0, [x21, w1, uxtw]
    (1, (0xD10043FF, 0xF9400020, RET), Fault(1, 2), [0xF94003FF, 0xF8614AA0]),
    # sub sp, sp, #16; nop; ldpsw x2, x3, [x1]: ldr xzr, [sp]; add w22, w1, #0; ldrsw x2, [x21, w22, uxtw]; add w22, w22, #4;
    # ldrsw x3, [x21, w22, uxtw]
    (2, (0xD10043FF, NOP, 0x69400C22, RET), Fault(2, 1), [0xF94003FF, 0x11000036, 0xB8B64AA2, 0x110012D6, 0xB8B64AA3]),
    # ldr x30, [x18, #16]; nop: add x30, x21, w30, uxtw
    (1, (0xF9400A5E, NOP, RET), Fault(1, 10), [0x8B3E42BE]),
    # rbit x0, x1; clz x0, x0: neg x16, x1; and x16, x16, x1; mov x17, #0x8000000000000000; udiv x0, x17, x16
    (1, (NOP, 0xDAC00020, 0xDAC01000), Fault(1, 1), [0xCB0103F0, 0x8A010210, 0xD2F00011, 0x9AD00A20]),
    # ldar x0, [x1]: add x18, x21, w1, uxtw; ldar x0, [x18]
    (2, (0xC8DFFC20,), Fault(0, 2), [0x8B2142B2, 0xC8DFFE40]),
    # prfm pldl1keep, [x1, #64]
    (1, (0xF9802020,), Fault(0, 1), []),
    (1, (BASE_WRITTEN,), Fault(0, 3), None),
)


def code_of(*words):
    return b"".join(word.to_bytes(4, "little") for word in words)


def header(kind, second, module, a, b):
    """A message without payload."""
    return bytes((kind, second, module, 0)) + a.to_bytes(4, "little") + b.to_bytes(4, "little")


def page(kind, module, index, *words):
    """A Page, of kind 2 or of kind 5, with its payload."""
    return header(kind, 0, module, index, 4 * len(words)) + code_of(*words)


def module_of(module, pages):
    """A module of whole pages, all NOP: its Open, its pages and its Close."""
    body = b"".join(page(2, module, index, *[NOP] * 1024) for index in range(pages))
    return header(1, 0, module, 1024 * pages, 0) + body + header(3, 0, module, 0, 0)


def views_of(data):
    """Buffers that have these bytes, in items of four bytes, with others between them, backwards, and as a part."""
    words = array.array("I", data)
    pairs = array.array("I", [it for word in words for it in (word, 0)])
    doubled = bytes(it for byte in data for it in (byte, 0))
    backwards, part = memoryview(data[::-1])[::-1], memoryview(b"\0" + data + b"\0")[1:-1]
    return memoryview(data).cast("I"), words, memoryview(pairs)[::2], memoryview(doubled)[::2], backwards, part


def written_during(name, data, written):
    """Has somebody else write to the caller's buffer when this call of the library begins."""
    call = getattr(LIBRARY, name)

    def called(*given):
        data[:] = written
        return call(*given)

    return mock.patch.object(LIBRARY, name, called)


def verdict(code, profile=1):
    """The line of `lfiload check`."""
    try:
        lfi_verifier.verify(code, profile)
    except Violation as violation:
        return str(violation)
    return f"lawful, {len(code) // 4} words"


class Verifying(unittest.TestCase):
    def test_numbers(self):
        """The header's."""
        defined = {name: int(number) for name, number in re.findall(r"^#define LFI_(\w+) (\d+)u", HEADER.read_text(), re.M)}
        named = {it.name: it.value for it in (*Status, *Reason)}
        named.update((name, getattr(lfi_verifier, name)) for name in ("VERSION", "MAX_WORDS", "MODULES", "MOST_MENDED"))
        self.assertEqual(named, {name: defined[name] for name in named})

    def test_rules(self):
        """Each sequence of docs/PROFILE.md with the verdict that stands above it."""
        files = sorted((EXAMPLES / "rules").glob("*.s"))
        self.assertGreater(len(files), 20)
        for file in files:
            wanted = file.read_text().splitlines()[0].removeprefix("// ")
            self.assertEqual(verdict(file.with_suffix(".code").read_bytes()), wanted, file.name)

    def test_kinds_of_bytes(self):
        code = (EXAMPLES / "checksums.code").read_bytes()
        for it in code, bytearray(code), memoryview(code):
            self.assertIsNone(lfi_verifier.verify(it))

    def test_views(self):
        """All bytes of a buffer count, whatever its items are."""
        for view in views_of(code_of(NOP, NOP, NOP, SVC)):
            self.assertEqual(verdict(view), "word 3 rule 1")
        profile, words, fault, wanted = MENDED[0]
        for view in views_of(code_of(*words)):
            self.assertEqual(lfi_verifier.mend(view, fault, profile), wanted)
        profile, module, words, fault, wanted = EXPLAINED[0]
        for view in views_of(code_of(*words)):
            self.assertEqual(lfi_verifier.explain(view, fault, profile, module), wanted)

    def test_names(self):
        """Each parameter may be told by its name."""
        self.assertIsNone(lfi_verifier.verify(data=code_of(ACQUIRE), profile=2))
        profile, module, words, fault, wanted = EXPLAINED[0]
        self.assertEqual(lfi_verifier.explain(data=code_of(*words), fault=fault, profile=profile, module=module), wanted)
        profile, words, fault, wanted = MENDED[0]
        self.assertEqual(lfi_verifier.mend(data=code_of(*words), fault=fault, profile=profile), wanted)
        self.assertEqual(Stream().read(piece=b"\1"), [])

    def test_types(self):
        """What a host may hand in, and what it is told, is written out for whoever checks its types."""
        bytes_of, event = lfi_verifier.Buffer, lfi_verifier.Event
        for call, told in (
            (lfi_verifier.verify, {"data": bytes_of, "profile": int, "return": type(None)}),
            (lfi_verifier.explain, {"data": bytes_of, "fault": Fault, "profile": int, "module": int, "return": str}),
            (lfi_verifier.mend, {"data": bytes_of, "fault": Fault, "profile": int, "return": typing.Optional[typing.List[int]]}),
            (Stream.read, {"piece": bytes_of, "return": typing.List[event]}),
            (Stream.end, {"return": typing.List[event]}),
        ):
            self.assertEqual(typing.get_type_hints(call), told)
        self.assertEqual(set(typing.get_args(bytes_of)), {bytes, bytearray, memoryview})
        self.assertEqual(set(typing.get_args(event)), {Open, Code, Stray, End, StreamFault})

    def test_what_has_no_bytes(self):
        """A number isn't taken for a count of zero bytes, nor a list or a path for its bytes."""
        for data in 12, [0, 0, 0, 0], "code", EXAMPLES, None:
            for call in lfi_verifier.verify, Stream().read:
                self.assertRaises(TypeError, call, data)
            for call in lfi_verifier.explain, lfi_verifier.mend:
                self.assertRaises(TypeError, call, data, Fault(0, 1))

    def test_a_buffer_that_changes(self):
        """What is judged is the copy that was made before."""
        for view in bytearray, memoryview:
            data = bytearray(code_of(RET))
            with written_during("lfi_verify", data, code_of(SVC)):
                self.assertIsNone(lfi_verifier.verify(data if view is bytearray else view(data)))
            self.assertEqual(verdict(data), "word 0 rule 1")
            for call, (profile, *_, words, fault, wanted) in ((lfi_verifier.explain, EXPLAINED[-1]), (lfi_verifier.mend, MENDED[1])):
                data = bytearray(code_of(*words))
                with written_during(f"lfi_{call.__name__}", data, bytes(len(data))):
                    self.assertEqual(call(data if view is bytearray else view(data), fault, profile), wanted)

    def test_a_buffer_that_is_used_again(self):
        """A call has no part in the buffer once it is over, also where it raised: it can get another length."""
        for call, words, *given in (
            (lfi_verifier.verify, (RET,)),
            (lfi_verifier.verify, (SVC,)),
            (lfi_verifier.explain, (SVC,), Fault(0, 1)),
            (lfi_verifier.mend, (SVC,), Fault(0, 1)),
            (Stream().read, (1 << 16,)),
        ):
            for data in bytearray(code_of(*words)), bytearray(3):
                try:
                    call(data, *given)
                except (Violation, ValueError) as why:
                    data += b"\0"  # while what it raised is there, and so all that it refers to
                    del why
                data.clear()

    def test_what_is_kept(self):
        """Of what calls were handed nothing is kept."""
        tracemalloc.start()
        self.addCleanup(tracemalloc.stop)
        for number in range(8):
            words = code_of(*[NOP] * 65_536, 0xF9400020 + number)
            self.assertEqual(verdict(words), "word 65536 rule 2")
            self.assertIn("mend:", lfi_verifier.explain(words, Fault(65_536, 2)))
            self.assertEqual(lfi_verifier.mend(words, Fault(65_536, 2)), [0xF8614AA0 + number])
        del words
        self.assertLess(tracemalloc.get_traced_memory()[0], 300_000)

    def test_longest(self):
        longest = code_of(NOP) * lfi_verifier.MAX_WORDS
        self.assertIsNone(lfi_verifier.verify(longest))
        self.assertEqual(verdict(longest[:-4] + code_of(SVC)), "word 4194303 rule 1")

    def test_lengths(self):
        for code in b"", b"\0", bytes(16_777_220):
            self.assertRaises(BadLength, lfi_verifier.verify, code)
            self.assertEqual(verdict(code), "bad length")

    def test_violations_cross_to_other_processes(self):
        for violation in Refused(Fault(3, 2)), BadLength("bad length"):
            found = pickle.loads(pickle.dumps(violation))
            self.assertEqual((type(found), str(found), vars(found)), (type(violation), str(violation), vars(violation)))

    def test_profiles(self):
        acquire = (0x88DFFE40).to_bytes(4, "little")  # ldar w0, [x18]
        self.assertEqual(verdict(acquire), "word 0 rule 1")
        self.assertEqual(verdict(acquire, 2), "lawful, 1 words")
        for profile in 0, 3, -1, 2**32 + 1:
            self.assertRaises(ValueError, lfi_verifier.verify, acquire, profile)

    def test_what_is_not_said(self):
        """The profile is 1 and the module 0 where nothing else is said."""
        code, fault = code_of(ACQUIRE), Fault(0, 1)
        with self.assertRaises(Refused) as refused:
            lfi_verifier.verify(code)
        self.assertEqual(refused.exception.fault, fault)
        self.assertIn("0x0000000100010000  c8dffe40  .inst 0xc8dffe40\n", lfi_verifier.explain(code, fault))
        self.assertIn("ldar is an instruction of profile 2", lfi_verifier.explain(code, fault))
        self.assertEqual(lfi_verifier.mend(code_of(0xC8DFFC20), Fault(0, 1)), None)

    def test_numbers_that_do_not_fit(self):
        """A number of which 32 bits are right is none, in each parameter of each call."""
        code = (EXAMPLES / "checksums_unguarded.code").read_bytes()
        for more in 2**32, -(2**32), 2**64, 2**32 - 2**64:
            for call, *given in (
                (lfi_verifier.verify, 1 + more),
                (lfi_verifier.explain, Fault(16 + more, 2)),
                (lfi_verifier.explain, Fault(16, 2 + more)),
                (lfi_verifier.explain, Fault(16, 2), 1 + more),
                (lfi_verifier.explain, Fault(16, 2), 2 + more),
                (lfi_verifier.explain, Fault(16, 2), 1, more),
                (lfi_verifier.mend, Fault(16 + more, 2)),
                (lfi_verifier.mend, Fault(16, 2 + more)),
                (lfi_verifier.mend, Fault(16, 2), 1 + more),
            ):
                self.assertRaises(ValueError, call, code, *given)

    def test_explanation(self):
        """The text that README.md shows."""
        code = (EXAMPLES / "checksums_unguarded.code").read_bytes()
        with self.assertRaises(Refused) as found:
            lfi_verifier.verify(code)
        self.assertEqual(found.exception.fault, Fault(16, 2))
        text = lfi_verifier.explain(code, found.exception.fault)
        self.assertTrue(text.startswith("word 16 rule 2\n  0x0000000100010040  b8237880  str w0, [x4, x3, lsl #2]\n"), text)
        self.assertTrue(text.endswith("  mend: in its place\n    add w22, w4, w3, uxtw #2\n    str w0, [x21, w22, uxtw]"), text)
        self.assertEqual(lfi_verifier.mend(code, found.exception.fault), [0x0B234896, 0xB8364AA0])
        self.assertIsNone(lfi_verifier.mend((0xAA0003F5).to_bytes(4, "little"), Fault(0, 3)))  # mov x21, x0
        for fault, module in (Fault(105, 1), 0), (Fault(16, 0), 0), (Fault(16, 2), 16), (Fault(-1, 2), 0), (Fault(16, 2 + 2**32), 0):
            self.assertRaises(ValueError, lfi_verifier.explain, code, fault, 1, module)
        for data in b"", code[:-1], code[:64], bytes(16_777_220):
            self.assertRaisesRegex(ValueError, "BAD_LENGTH", lfi_verifier.explain, data, Fault(16, 2))
            self.assertRaisesRegex(ValueError, "BAD_LENGTH", lfi_verifier.mend, data, Fault(16, 2))

    def test_explanations(self):
        for profile, module, words, fault, wanted in EXPLAINED:
            code = code_of(*words)
            self.assertEqual(verdict(code, profile), f"word {fault.word} rule {fault.rule}")
            self.assertEqual(lfi_verifier.explain(code, fault, profile, module), wanted)

    def test_room(self):
        """docs/C.md, of LFI_NO_ROOM: no text is longer. The longest mend stands whole in its text."""
        most = re.search(r"a text is longer than ([\d,]+) bytes", (TOP / "docs" / "C.md").read_text())[1]
        self.assertEqual(f"{lfi_verifier.ROOM:,}", most)
        code, fault = code_of(0xF9400A5E, 0xDAC00BC4), Fault(1, 1)  # ldr x30, [x18, #16]; rev32 x4, x30
        lines = lfi_verifier.explain(code, fault).partition("mend: ")[2].splitlines()
        self.assertEqual(len(lines) - 1, len(lfi_verifier.mend(code, fault)))

    def test_calls_at_once(self):
        """What another thread calls while a call is in the library changes nothing of it."""
        bare, behind = code_of(NOP, 0xF9400020), code_of(0xD10043FF, 0xF9400020, RET)
        calls = (
            ("lfi_verify", lambda: verdict(code_of(NOP, BASE_WRITTEN)), lambda: verdict(code_of(SVC))),
            ("lfi_explain", lambda: lfi_verifier.explain(bare, Fault(1, 2)), lambda: lfi_verifier.explain(behind, Fault(1, 2))),
            ("lfi_mend", lambda: lfi_verifier.mend(bare, Fault(1, 2)), lambda: lfi_verifier.mend(behind, Fault(1, 2))),
        )
        for name, ours, theirs in calls:
            call, wanted, told = getattr(LIBRARY, name), (ours(), theirs()), []

            def called(*given):
                found = call(*given)
                if not told:
                    told.append(None)
                    other = threading.Thread(target=lambda: told.append(theirs()))
                    other.start()
                    other.join()
                return found

            with mock.patch.object(LIBRARY, name, called):
                self.assertEqual((ours(), told[1]), wanted)
            self.assertNotEqual(*wanted)

    def test_mends(self):
        for profile, words, fault, wanted in MENDED:
            code = code_of(*words)
            self.assertEqual(verdict(code, profile), f"word {fault.word} rule {fault.rule}")
            self.assertEqual(lfi_verifier.mend(code, fault, profile), wanted)
        for fault, profile in (Fault(1, 1), 1), (Fault(0, 0), 1), (Fault(-1, 1), 1), (Fault(0, 1 + 2**32), 1), (Fault(0, 1), 3):
            self.assertRaises(ValueError, lfi_verifier.mend, code_of(SVC), fault, profile)

    def test_what_is_not_named(self):
        """LDAR W0, [X18] is none of profile 1, which is the one by default; it lies in slot 0."""
        code = code_of(0x88DFFE40)
        self.assertEqual(verdict(code), "word 0 rule 1")
        self.assertIn("\n  0x0000000100010000  88dffe40  ", lfi_verifier.explain(code, Fault(0, 1)))
        self.assertIn("ldar is an instruction of profile 2\n", lfi_verifier.explain(code, Fault(0, 1)))
        # LDAR W0, [X1] has a mend by profile 2.
        self.assertIsNone(lfi_verifier.mend(code_of(0x88DFFC20), Fault(0, 2)))


# Modules of both profiles and of both page sizes, whose messages are mixed. Beside each stands its first byte's place. Each word of the
# full large page is another one: movz w0, #0; movz w0, #1; and so on.
MIXED = b"".join((
    header(4, 2, 7, 4098, 4097),                                   # 0: profile 2, large pages
    header(1, 0, 2, 3, 2),                                         # 12: profile 1
    page(5, 7, 0, *(0x52800000 + 32 * it for it in range(4096))),  # 24
    page(2, 2, 0, NOP, ACQUIRE, RET),                              # 16,420: word 1 breaks rule 1 in profile 1
    page(5, 7, 1, ACQUIRE, RET),                                   # 16,444
    page(2, 9, 0, NOP),                                            # 16,464: of a module that isn't open
    header(1, 0, 4, 1, 0),                                         # 16,480
    page(2, 4, 0, NOP),                                            # 16,492
    page(2, 4, 5, NOP),                                            # 16,508: it isn't due
    header(4, 0, 6, 2, 1),                                         # 16,524: profile 2, small pages
    page(2, 6, 0, ACQUIRE, BASE_WRITTEN),                          # 16,536: word 1 breaks rule 3
    header(3, 0, 2, 0, 0),                                         # 16,556
    header(3, 0, 7, 0, 0),                                         # 16,568
    header(3, 0, 6, 1, 0),                                         # 16,580: a Close with a number
))
# What it tells in pieces of 4,999 bytes, the first three of which end within a word of module 7, by docs/PROFILE.md, "Streams", and by
# what include/lfi_verifier.h says of an event.
TOLD = [
    Open(module=7, words=4098, entry=4097, profile=2, page_bytes=16_384),
    Open(module=2, words=3, entry=2, profile=1, page_bytes=4_096),
    Code(7, 0, MIXED[36:4_999], ends_page=False, fault=None),
    Code(7, 4_963, MIXED[4_999:9_998], ends_page=False, fault=None),
    Code(7, 9_962, MIXED[9_998:14_997], ends_page=False, fault=None),
    Code(7, 14_961, MIXED[14_997:16_420], ends_page=True, fault=None),
    Code(2, 0, MIXED[16_432:16_444], ends_page=True, fault=Fault(1, 1)),
    Code(7, 16_384, MIXED[16_456:16_464], ends_page=True, fault=None),
    Stray(9),
    Open(module=4, words=1, entry=0, profile=1, page_bytes=4_096),
    Code(4, 0, MIXED[16_504:16_508], ends_page=True, fault=None),
    End(4, 1, 1, Reason.PAGE_FAULT, 5, Status.INCOMPLETE, None),
    Open(module=6, words=2, entry=1, profile=2, page_bytes=4_096),
    Code(6, 0, MIXED[16_548:16_556], ends_page=True, fault=Fault(1, 3)),
    End(2, 3, 1, Reason.CLOSED, 0, Status.REFUSED, Fault(1, 1)),
    End(7, 4098, 2, Reason.CLOSED, 0, Status.LAWFUL, None),
    StreamFault(5),
    End(6, 2, 1, Reason.LOST, 5, Status.REFUSED, Fault(1, 3)),
]
ONE_RET = header(1, 0, 5, 1, 0) + page(2, 5, 0, RET) + header(3, 0, 5, 0, 0)


class Streaming(unittest.TestCase):
    def told(self, name, size):
        """All that a stream tells in pieces of this size."""
        text, stream, events = (EXAMPLES / name).read_bytes(), Stream(), []
        for at in range(0, len(text), size):
            events += stream.read(text[at : at + size])
        self.assertEqual(stream.read(b"") + stream.end() + stream.end(), stream.end() + stream.read(b"\1"))
        return events

    def test_code(self):
        code = (EXAMPLES / "checksums.code").read_bytes()
        for size in 1, 5, 100, 4096:
            events = self.told("checksums.stream", size)
            parts = [it for it in events if isinstance(it, Code)]
            self.assertEqual(b"".join(it.data for it in parts), code)
            self.assertEqual({type(it.data) for it in parts}, {bytes})
            self.assertTrue(all(it.fault is None for it in parts) and parts[-1].ends_page)
            self.assertEqual(events[-1], End(1, 124, 1, Reason.CLOSED, 0, Status.LAWFUL, None))

    def test_hostile(self):
        """examples/hostile.stream as README.md of the examples tells it."""
        text = (EXAMPLES / "hostile.stream").read_bytes()
        for size in range(1, len(text)):
            stream, events = Stream(), []
            for at in range(0, len(text), size):
                events += stream.read(text[at : at + size])
            self.assertEqual(stream.read(text), [])
            ends = {it.module: (it.reason, it.number, it.verdict, it.fault) for it in events + stream.end() if isinstance(it, End)}
            self.assertEqual(ends, {2: (Reason.CLOSED, 0, Status.REFUSED, Fault(0, 2)), 3: (Reason.PAGE_FAULT, 1, Status.INCOMPLETE, None),
                                    4: (Reason.LOST, 1, Status.INCOMPLETE, None)})
            self.assertIn(StreamFault(1), events)

    def test_nothing_is_read_after_the_end(self):
        """Also behind an end at which nothing was left to tell."""
        stream = Stream()
        self.assertEqual((stream.end(), stream.read(ONE_RET), stream.end()), ([], [], []))

    def test_an_end_too_early(self):
        text = (EXAMPLES / "checksums.stream").read_bytes()
        stream = Stream()
        stream.read(text[:-1])
        self.assertEqual(stream.end(), [StreamFault(9), End(1, 124, 1, Reason.LOST, 9, Status.INCOMPLETE, None)])
        self.assertEqual(Stream().end(), [])

    def test_each_event(self):
        stream, events = Stream(), []
        for at in range(0, len(MIXED), 4_999):
            events += stream.read(MIXED[at : at + 4_999])
        events += stream.end()
        for event, wanted in zip(events, TOLD):
            self.assertEqual((type(event), event), (type(wanted), wanted))
        self.assertEqual(len(events), len(TOLD))

    def test_a_buffer_that_changes(self):
        """What is judged and told is the copy that was made before."""
        for view in bytearray, memoryview:
            data = bytearray(ONE_RET)
            with written_during("lfi_stream_next", data, bytes(len(data))):
                events = Stream().read(data if view is bytearray else view(data))
            self.assertEqual(events[1:], [Code(5, 0, code_of(RET), True, None), End(5, 1, 1, Reason.CLOSED, 0, Status.LAWFUL, None)])

    def test_views(self):
        """A piece with items of four bytes tells what its bytes do."""
        wanted = Stream().read(MIXED)
        for view in views_of(MIXED):
            self.assertTrue(Stream().read(view) == wanted)  # without a text of how thousands of bytes differ

    def test_turns(self):
        """While a thread is in a call of a stream, another thread waits before its own."""
        for name, first in ("lfi_stream_next", lambda it: it.read(b"\1")), ("lfi_stream_end", Stream.end):
            for second in (lambda it: it.read(b"\0")), Stream.end:
                stream, waits = Stream(), []
                other = threading.Thread(target=second, args=(stream,))
                call = getattr(LIBRARY, name)

                def called(*given):
                    if other.ident is None:
                        other.start()
                        other.join(0.1)
                        waits.append(other.is_alive())
                    return call(*given)

                with mock.patch.object(LIBRARY, name, called):
                    first(stream)
                    other.join()
                self.assertEqual(waits, [True])
                if second is Stream.end:  # nothing is read behind the end, also where the end came second
                    self.assertEqual(stream.read(module_of(0, 4)), [])

    def test_a_long_stream(self):
        """Nothing of it is kept, neither of what belongs to no module nor of code."""
        stream = Stream()
        tracemalloc.start()
        self.addCleanup(tracemalloc.stop)
        for _ in range(50):
            self.assertEqual(stream.read(header(3, 0, 9, 0, 0) * 1_000), [Stray(9)] * 1_000)
        for module in range(16):
            self.assertEqual(stream.read(module_of(module, 32))[-1].verdict, Status.LAWFUL)
        self.assertEqual(stream.end(), [])
        self.assertLess(tracemalloc.get_traced_memory()[0], 300_000)

    def test_other_streams_go_on(self):
        """While a thread is in a call of a stream, another thread reads other streams, and comes to their ends: each stream tells its own."""
        def told_by(stream):
            return stream.read(ONE_RET[:12]) + stream.end()

        def reads():
            found.extend(told_by(Stream()))

        def called(*given):
            if threading.current_thread() is not threading.main_thread():
                return call(*given)
            for at in range(2):
                thread = threading.Thread(target=reads)
                thread.start()
                thread.join(5)
                self.assertFalse(thread.is_alive())
                used = call(*given) if at == 0 else used
            return used

        wanted = told_by(Stream())
        for name in "lfi_stream_next", "lfi_stream_end":
            call, found, stream = getattr(LIBRARY, name), [], Stream()
            stream.read(header(1, 0, 2, 3, 1))
            with mock.patch.object(LIBRARY, name, called):
                events = stream.read(header(3, 0, 9, 0, 0)) + stream.end()
            self.assertEqual(events, [Stray(9), StreamFault(9), End(2, 3, 0, Reason.LOST, 9, Status.INCOMPLETE, None)])
            self.assertEqual(found, wanted * (len(found) // len(wanted)))
            self.assertTrue(found)

    def test_reads_of_several_threads(self):
        """The bytes of a read are handled together, whatever other threads read meanwhile: each of 16 modules comes whole."""
        switched = sys.getswitchinterval()
        self.addCleanup(sys.setswitchinterval, switched)
        sys.setswitchinterval(1e-6)
        modules = [module_of(at, 4) for at in range(16)]
        for _ in range(60):
            stream, events = Stream(), []
            threads = [threading.Thread(target=lambda it=it: events.extend(stream.read(it))) for it in modules]
            for it in threads:
                it.start()
            for it in threads:
                it.join()
            events += stream.end()
            self.assertFalse([it for it in events if isinstance(it, StreamFault)])
            ends = [(it.module, it.verdict) for it in events if isinstance(it, End)]
            self.assertEqual(sorted(ends), [(at, Status.LAWFUL) for at in range(16)])

    def test_a_length_of_more_than_32_bits(self):
        """Bytes of which there are 2^32 more than of a lawful word are no code."""
        with tempfile.TemporaryFile() as file:
            file.write(code_of(RET))
            file.truncate(2**32 + 4)
            with mmap.mmap(file.fileno(), 2**32 + 4) as many:
                first = (ctypes.c_char * 4).from_buffer(many)
                status = LIBRARY.lfi_verify(first, len(many), 1, lfi_verifier._Fault())
                del first
        self.assertEqual(status, Status.BAD_LENGTH)

    def test_other_threads_go_on(self):
        """While code is judged the interpreter's lock is free (ctypes: CDLL, and not PyDLL)."""
        self.assertNotIsInstance(LIBRARY, ctypes.PyDLL)

    def test_numbers_that_no_call_wrote(self):
        """docs/C.md, "A stream": 840 bytes, whose first number is 0 to 2, and whose modules' verdicts begin at byte 424."""
        self.assertEqual(ctypes.sizeof(lfi_verifier._Stream), 840)
        stream = Stream()
        stream.read(ONE_RET[:12])
        stream._numbers[(424 + 5 * 24) // 8] = 0  # module 5 is judged by no profile
        self.assertRaisesRegex(RuntimeError, "wasn't judged", stream.read, ONE_RET[12:])
        stream = Stream()
        stream._numbers[0] = 3
        for call in (lambda: stream.read(ONE_RET)), stream.end:
            self.assertRaisesRegex(RuntimeError, "no stream", call)


if __name__ == "__main__":
    unittest.main()
