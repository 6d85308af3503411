"""Draws lawful programs, as image files, for checks/native: random code of both profiles, and code at the edges of map, registers and
entries. Patterns, ranges, rules and needs are those of checks/second_verifier. What isn't lawful after all `lfiload run` refuses.

A program puts numbers into its registers, carries out its body, and tells by the runtime's entry 1, byte by byte, what all registers,
the flags and some memory hold then. So whatever a run does otherwise shows in its output.
"""

import pathlib
import struct
import sys

sys.path.insert(0, str(pathlib.Path(__file__).resolve().parent.parent))
from lib import formats
from lib.plain import RULES

SLOT, CODE, PAGE, TABLE = 1 << 32, 65_536, 4_096, 4_096
FREE = (*range(18), 19, 20, *range(25, 30))
ADDRESSES, BASE, OFFSET, LINK, SP, ZERO = (18, 23, 24), 21, 22, 30, 31, 31
NOP, BRK, RET, CALL_LINK, PROBE = 0xD503201F, 0xD4200000, 0xD65F03C0, 0xD63F03C0, 0xF94003FF
# How often a class is drawn. Branches through registers and BRK end most programs, so they are rare.
WEIGHTS = {
    "AddSubImmediate": 8, "LogicalImmediate": 5, "MoveWide": 5, "PcRelative": 2, "Bitfield": 6, "LogicalShifted": 6, "AddSubShifted": 6,
    "AddSubExtended": 5, "ConditionalCompare": 4, "ConditionalSelect": 5, "TwoSource": 6, "CountLeadingZeros": 2, "MultiplyAdd": 5,
    "MultiplyHigh": 3, "Nop": 1, "Branch": 1, "ConditionalBranch": 3, "CompareBranch": 2, "TestBranch": 2, "BranchRegister": 0.05,
    "Breakpoint": 0.02, "UnsignedOffset": 8, "SignedOffset": 8, "RegisterOffset": 4, "Pair": 8, "Ordered": 6,
}
ACCESSES = ("UnsignedOffset", "SignedOffset", "RegisterOffset", "Pair", "Ordered")
BRANCHES = {"Branch": 26, "ConditionalBranch": 19, "CompareBranch": 19, "TestBranch": 14}
NUMBERS = (0, 1, 2, 31, 32, 63, 64, 0x7F, 0x80, 0xFF, 0x7FFF, 0xFFFF, 0x7FFFFFFF, 0x80000000, 0xFFFFFFFF, 1 << 32, (1 << 63) - 1, 1 << 63, (1 << 64) - 1)


# ---- words


def move(register, number):
    """Words that put a number of 64 bits into a register."""
    parts = [(hw, number >> 16 * hw & 0xFFFF) for hw in range(4)]
    (hw, first), *rest = [part for part in parts if part[1]] or parts[:1]
    return [0xD2800000 | hw << 21 | first << 5 | register, *(0xF2800000 | hw << 21 | part << 5 | register for hw, part in rest)]


def guard(register, source):
    return 0x8B204000 | source << 16 | BASE << 5 | register


def store(register, offset):
    """STR of an X register at the slot's base and a W register."""
    return 0xF8204800 | offset << 16 | BASE << 5 | register


def load_entry(number):
    return 0xF94002BE | number << 10


def call(number):
    return [load_entry(number), CALL_LINK]


def add(register, number):
    """ADD of an immediate to a W register."""
    return 0x11000000 | number << 10 | register << 5 | register


def copy(register, source):
    return 0xAA0003E0 | source << 16 | register


def branch(words):
    return 0x14000000 | words & 0x3FFFFFF


def end_of(words):
    """Where the data of a module of so many words begin, from the slot's base."""
    return (CODE + 4 * words + PAGE - 1) // PAGE * PAGE


# ---- what a program tells at its end


def fold(at, size):
    """Words that put a number into x2 that rests on all of so many bytes from `at` on, which is a multiple of 8."""
    # LDR X4, [X21, W1, UXTW]; EOR X2, X2, X4; ORR X2, XZR, X2, ROR #57; ADD X2, X2, X2, LSL #3; SUB W3, W3, #1; CBNZ W3, back
    return [*move(1, at), *move(3, size // 8), 0xF8614AA4, 0xCA040042, 0xAAC2E7E2, 0x8B020C42, add(1, 8), 0x51000463, 0x35000003 | (-6 & 0x7FFFF) << 5]


def tell(scratch, at, windows):
    """Words that store all registers but `scratch` at `at`, sp, the flags and a number for each window of memory, print all of it, and end."""
    words, count = move(scratch, at), 0
    for register in [it for it in range(31) if it != scratch]:
        words += [store(register, scratch), add(scratch, 8)]
        count += 1
    told = [[0x910003E0], *([0x9A9F07E0 | (condition ^ 1) << 12] for condition in (4, 0, 2, 6))]  # MOV X0, SP; CSET X0, MI and EQ, CS, VS
    told += [[*move(2, 0), *fold(start, size), copy(0, 2)] for start, size in windows]
    for part in told:
        words += [*part, store(0, scratch), add(scratch, 8)]
        count += 1
    words += [*move(scratch, at), *move(1, 8 * count)]
    # LDRB W0, [X21, the scratch register, UXTW]; entry 1; SUB W1, W1, #1; CBNZ W1, back
    words += [0x38604AA0 | scratch << 16, *call(1), add(scratch, 1), 0x51000421, 0x35000001 | (-5 & 0x7FFFF) << 5]
    return words + call(0)


# ---- random code


class Body:
    """Words that are drawn, each lawful after those before it; none of them writes the scratch register."""

    def __init__(self, source, profile, scratch):
        self.source, self.profile, self.scratch, self.words = source, profile, scratch, []
        self.classes = RULES.CLASSES if profile == 1 else RULES.CLASSES | RULES.ORDERED
        self.weights = [WEIGHTS[name] for name in self.classes]
        self.gadgets = (self.stack_move, self.link, self.address, self.jump, self.function, self.service, self.output, self.output)

    def field(self, name, field, width):
        """A value of a field of a class: mostly one that is of use."""
        source = self.source
        if field == "Rn" and name in ACCESSES:
            return BASE if name == "RegisterOffset" else source.choice((*ADDRESSES, SP))
        if name == "RegisterOffset" and field in ("option", "S"):
            return 2 if field == "option" else 0
        if field in RULES.REGISTERS and field != "b40" and source.random() < 0.9:
            return source.choice(FREE) if source.random() < 0.9 else ZERO
        if field == "imm" and name in BRANCHES:
            return source.randrange(1, 9) if source.random() < 0.98 else -source.randrange(1, 9)
        if field == "imm" and width > 5 and source.random() < 0.7:
            return source.choice((0, 1, 2, 8, 16, -1, -8, -256, 255))
        return source.getrandbits(width)

    def drawn(self):
        """A word of some class."""
        name = self.source.choices(list(self.classes), self.weights)[0]
        _, word, places = self.classes[name]
        for field, place, width in places:
            word |= (self.field(name, field, width) & (1 << width) - 1) << place
        return word

    def may_stand(self, word, calm=False):
        """The word breaks no rule, opens nothing and leaves the scratch register; and where that is asked for, it is calm."""
        i = RULES.decode(word, self.profile)
        if i is None or RULES.opens(i) or RULES.broken(i, 1_000, 2_000) or self.scratch in dict(RULES.writes(i)):
            return False
        return not calm or RULES.is_calm(i)

    def lawful(self, calm=False):
        word = self.drawn()
        while not self.may_stand(word, calm):
            word = self.drawn()
        return word

    def register(self):
        return self.source.choice([it for it in FREE if it != self.scratch])

    def stack_move(self):
        """sp moved by an immediate, and its probe: at once, or in profile 2 after up to three calm words."""
        source, register = self.source, self.register()
        number = source.choice((0, 8, 16, 16, 32, 64, 128, 4_095))
        late = source.randrange(4) if self.profile == 2 else 0
        # LDR XZR; STR, LDR and STRB of a register; STP of it and XZR: all at [SP]
        probe = source.choice((PROBE, 0xF90003E0 | register, 0xF94003E0 | register, 0x390003E0 | register, 0xA9007FE0 | register))
        return [source.choice((0xD10003FF, 0x910003FF)) | number << 10, *(self.lawful(calm=True) for _ in range(late)), probe]

    def link(self):
        """x30 loaded, and guarded at once."""
        register = self.register()
        # LDR X30 at [SP], [X18], [SP, #-8] and [X21, W, UXTW]; LDP X30 and a register at [SP]
        loads = (0xF94003FE, 0xF940025E, 0xF85F83FE, 0xF8604ABE | register << 16, 0xA94003FE | register << 10)
        return [self.source.choice(loads), guard(LINK, LINK)]

    def address(self):
        return [guard(self.source.choice(ADDRESSES), self.register())]

    def jump(self):
        """A branch through a register, past a word."""
        register, address = self.register(), self.source.choice(ADDRESSES)
        return [0x10000000 | 4 << 5 | register, guard(address, register), self.source.choice((0xD61F0000, 0xD63F0000)) | address << 5, self.lawful()]

    def function(self):
        """A function, and a call of it."""
        inside = [word for word in (self.lawful(calm=True) for _ in range(4)) if LINK not in dict(RULES.writes(RULES.decode(word, self.profile)))]
        return [branch(len(inside) + 2), *inside, RET, 0x94000000 | -(len(inside) + 1) & 0x3FFFFFF]

    def service(self):
        """A call of an entry."""
        return call(self.source.randrange(2, 512) if self.source.random() < 0.99 else 0)

    def output(self):
        return [copy(0, self.register()), *call(1)]

    def draw(self, count):
        while len(self.words) < count:
            self.words += self.source.choice(self.gadgets)() if self.source.random() < 0.2 else [self.lawful()]
        return self.words + [NOP] * 9  # branches near the end go here


def some_number(source, arena):
    """A number for a register: often an address or an offset of the arena."""
    kind = source.random()
    if kind < 0.7:
        return arena + source.randrange(0, 4_096, 8) + source.choice((0, 0, 0, 1, 4, SLOT))
    return source.choice(NUMBERS) if kind < 0.85 else source.getrandbits(64)


def random_program(source):
    """An image of random code: most of it accesses an arena of data, some of it what it finds."""
    profile, module = source.choice((1, 2)), source.choice((0, 1, 7, 15))
    scratch = source.choice([it for it in FREE if it > 4])
    arena = source.choice((0x20000, 0x20000, 0x7FFF0000, 0xFFFE0000, end_of(1_024), end_of(1_024)))
    body = Body(source, profile, scratch)
    words = [word for register in FREE if register != scratch for word in move(register, some_number(source, arena))]
    for register in (*ADDRESSES, SP):
        words += [*move(scratch, arena + source.randrange(1_024, 3_072, 16)), guard(register, scratch)]
    words += [0x52800000 | source.getrandbits(16) << 5 | OFFSET, 0x6B00001F | source.choice(FREE) << 16 | source.choice(FREE) << 5]  # MOVZ; CMP
    words += [0xF9000240 | at << 10 | source.choice(FREE) for at in range(0, 64, 7)]  # some numbers in memory, through x18
    words += body.draw(source.randrange(5, 120))
    words += tell(scratch, 0xC0000000, [(arena, 4_096)])
    words += [NOP] * (source.choice((0, 0, 1, 1_024)) if len(words) < 1_000 else 0)
    return formats.image(module, 0, formats.code_of(*words), profile)


def random_stream(source):
    """A stream of four random modules, by their own profiles, in small pages or by the second profile in large ones, all messages mixed."""
    lists = []
    for module in (0, 1, 7, 15):
        file = random_program(source)
        (_, entry, profile), code = struct.unpack_from("<III", file, 4), file[24:]
        large = profile == 2 and source.choice((False, True))
        lists.append(formats.messages(module, code, profile, large, entry))
    mixed = []
    while any(lists):
        mixed.append(source.choice([it for it in lists if it]).pop(0))
    return b"".join(mixed)


# ---- edges


END = tell(28, 0xC0000000, [(end_of(1_024), 64)])


def program(words, entry=0, module=0, profile=1, count=0):
    """An image of these words, filled up with NOP to so many."""
    words = [*words, *[NOP] * (count - len(words))]
    return formats.image(module, entry, formats.code_of(*words), profile)


# HOST: | pc | an address in the slot: the word at which it is entered; after a call the word after it, as a rule |
def starts():
    """What the registers hold at the start, in each slot, entered at the first word and at a later one."""
    for module in range(formats.MODULES):
        yield f"start-{module}", program(END, module=module)
        yield f"entered-{module}", program([BRK] * 700 + END, 700, module, 2)


def longest():
    """A module of as many words as there may be, entered near its end: the start has the farthest to go."""
    yield "longest", program([BRK] * (formats.MOST_WORDS - len(END)) + END, formats.MOST_WORDS - len(END))


# HOST: keeps x18, x21 to x24, sp and its own way back, x30, and gives them back as they were;
# HOST: returns through x30 of the call, or doesn't return.
def entries():
    """Each entry, one by one among the edges of their numbers and all in one program; what they answer and keep."""
    fill = [word for register in FREE for word in move(register, (register + 1) * 0x0123456789ABCDEF % (1 << 64))]
    fill += [*(guard(register, register - 17) for register in ADDRESSES), 0x52800000 | 0xFEDC << 5 | OFFSET, 0xB100001F | 5 << 5]  # MOVZ; CMN
    yield "entries", program([*fill, *(word for number in range(1, 512) for word in call(number)), *END])
    for number in (0, 1, 2, 3, 8, 255, 256, 510, 511):
        yield f"entry-{number}", program([*fill, *call(number), *END])


def places(count):
    """Places in a slot with a module of so many words: at the edges of what may be accessed, and around them."""
    end = end_of(count)
    edges = (0, TABLE, CODE, CODE + 4 * count, end, SLOT)
    return sorted({(edge + by) % SLOT for edge in edges for by in (-16, -9, -8, -7, -4, -3, -2, -1, 0, 1, 2, 3, 4, 8)} | {0x80000000})


# HOST: Pages are executable as a whole, and the law's code is the n words alone.
# HOST: | a fetch that isn't at a word of the code (halt 3) | SIGSEGV; SIGILL in the zero bytes; SIGBUS at an address that is no multiple of
#   4 | |
def jumps():
    """Branches through each register that may hold a target, to each such place."""
    for count in (16, 1_024, 1_030):
        for at in places(count):
            for register in (*ADDRESSES, LINK):
                for kind in (0xD61F0000, 0xD63F0000):
                    words = [*move(0, at), guard(register, 0), kind | register << 5]
                    yield f"jump-{count}-{register}-{kind >> 21 & 3}-{at:x}", program(words, count=count)
        yield f"off-{count}", program([NOP] * count)


# HOST: | an access without permission (halt 2) | SIGSEGV | a store that crosses into such a page may have written its first bytes; in the
#   definitions it has written nothing |
# HOST: | an access at any alignment goes on | it does so in ordinary memory, but SIGBUS where its base is sp and sp is no multiple of 16 |
#   it stops where the definitions go on |
def accesses():
    """Loads and stores of each class and size at each such place: through an address register, as single, pair and ordered ones, and by an
    offset; and as far from it as an immediate goes."""
    sizes, kinds = range(4), (0, 1)
    forms = [(1, 0x39000241 | size << 30 | loads << 22) for size in sizes for loads in kinds]
    forms += [(1, 0x38204AA1 | size << 30 | loads << 22) for size in sizes for loads in kinds]
    forms += [(2, 0x089FFE41 | size << 30 | loads << 22) for size in sizes for loads in kinds]
    forms += [(1, 0x29000A41 | wide << 31 | loads << 22) for wide in kinds for loads in kinds]
    forms += [(1, word) for word in (0xF97FFE41, 0xF93FFE41, 0xF8500241, 0xF8100241, 0xA9600A41, 0xA9200A41)]  # at 32760, -256, -512
    for at in places(1_024):
        for profile, word in forms:
            yield f"access-{word:x}-{at:x}", program([*move(0, at), guard(18, 0), word, *END], profile=profile, count=1_024)


# HOST: A word of zeros is UDF, which stops the code as the definitions do.
# HOST: **A handler that takes pc for the fault's place.** Whether pc is one of the n words tells a fetch from an access. The fault's
#   address (`si_addr`) doesn't: a store of a word to itself faults at an address that is pc.
def own_words():
    """Stores of code to its own words, the next ones and the zero bytes behind."""
    for at in (CODE, CODE + 4, CODE + 8, CODE + 12, CODE + 16, CODE + 4_088):
        yield f"own-{at:x}", program([*move(0, at), guard(18, 0), 0xF9000240, *END])


# HOST: sp may be up to 512 bytes outside of the slot, or at bytes that can't be written.
# HOST: All else is the code's: sp may be up to 512 bytes outside of the slot, or at bytes that can't be written.
# HOST: So an entry - uses no byte at sp: it takes a stack of the host's, which it finds by what the code can't write (a system register
#   such as TPIDR_EL0, which no instruction of the profile names);
def stacks():
    """sp at the edges of the slot, moved from there, and accessed up and down as far as an immediate goes."""
    for at in (0, 1, 8, 511, 4_096, CODE, SLOT - 511, SLOT - 16, SLOT - 8, SLOT - 1):
        for word in (0xF8100FE0, 0xF80FF7E0, 0xA9BF03E1, 0xF85003E0, 0xF84FF3E0, 0xF97FFFE0, 0xF93FFFE0, 0xA95F87E0, 0xA96003E1):
            yield f"stack-{at:x}-{word:x}", program([*move(0, at), guard(SP, 0), word, word, *END])
        for word in (0xD13FFFFF, 0x913FFFFF, 0xD10003FF):
            late = [NOP] * 3
            yield f"moved-{at:x}-{word:x}", program([*move(0, at), guard(SP, 0), word, *late, PROBE, *END], profile=2)


def edges():
    for each in (starts, longest, entries, jumps, accesses, own_words, stacks):
        yield from each()
