"""The part of checks/hostile on how many instructions a command executes: no clause says how much work a body is."""

import concurrent.futures
import contextlib
import itertools
import os
import pathlib
import random
import shutil
import tempfile
import threading

from lib import formats, steps
from lib.cases import NOP, PRINTS, RET, wrong
from lib.formats import code_of
from lib.plain import RULES
from lib.serving import connected

# Words, their status, and the most instructions that they may execute, less those of `--version`.
WORK = (
    (["check", "mixed.code"], 0, 280_000),
    (["check", "--explain", "mixed.code"], 0, 290_000),
    (["check", "--profile", "2", "late.code"], 0, 850_000),
    (["check", "--profile", "2", "ordered.code"], 0, 390_000),
    (["check", "--all", "refused.code"], 1, 420_000),
    (["check", "--all", "--profile", "2", "calm.code"], 1, 960_000),
    (["disassemble", "refused.code"], 0, 300_000),
    (["info", "mixed.img"], 0, 330_000),
    (["info", "mixed.stream"], 0, 60_000),
    (["run", "straight.img", "--steps", "4096"], 0, 880_000),
    (["run", "long.img", "--steps", "8192"], 0, 1_880_000),
    (["run", "singles.img", "--steps", "1024"], 0, 380_000),
    (["run", "pairs.img", "--steps", "1024"], 0, 430_000),
    (["run", "odd_singles.img", "--steps", "1024"], 0, 380_000),
    (["run", "odd_pairs.img", "--steps", "1024"], 0, 430_000),
    (["unpack", "mixed.img"], 0, 300_000),
    (["pack", "mixed.code"], 0, 70_000),
    (["load", "--verifiers", "1", "mixed.stream"], 0, 620_000),
    (["load", "--verifiers", "1", "straight.stream"], 0, 1_120_000),
    (["load", "--verifiers", "8", *(f"{module}.stream" for module in range(8))], 0, 1_560_000),
    (["load", "--verifiers", "1", "large.stream"], 0, 1_000_000),
    (["load", "--verifiers", "1", "turns.stream"], 0, 1_200_000),
    (["load", "--verifiers", "1", "refused.stream"], 1, 1_120_000),
    (["load", "--verifiers", "1", "--explain", "refused.stream"], 1, 1_140_000),
    (["load", "--verifiers", "1", "twice.stream"], 0, 730_000),
    (["load", "--verifiers", "1", "strays.stream"], 0, 860_000),
    (["load", "--verifiers", "1", "--format", "json", "mixed.stream"], 0, 640_000),
    (["load", "--verifiers", "1", "--out", ".", "turns.stream"], 0, 1_360_000),
    (["info", "strays.stream"], 0, 1_210_000),
    (["info", "turns.stream"], 0, 200_000),
    (["check", "--format", "json", "mixed.code"], 0, 300_000),
    (["check", "--format", "json", "--all", "refused.code"], 1, 720_000),
    (["check", "--all", "mixed.code"], 0, 290_000),
    (["check", "first.code"], 1, 60_000),
    (["check", "--explain", "first.code"], 1, 140_000),
    (["check", "--explain", "--profile", "2", "first.code"], 1, 150_000),
    (["check", *["short.code"] * 20], 0, 700_000),
    (["run", "code.img", "--steps", "1536"], 0, 690_000),
    (["run", "table.img", "--steps", "1536"], 0, 510_000),
    (["run", "fresh.img", "--steps", "1536"], 0, 270_000),
    (["check", *["one.code"] * 50], 0, 1_010_000),
    (["info", *["one.code"] * 50], 0, 350_000),
    (["disassemble", "--check", "refused.code"], 0, 370_000),
    (["pack", *["one.code"] * 16], 0, 140_000),
    (["pack", "--profile", "2", "--pages", "large", "mixed.code"], 0, 70_000),
    (["unpack", "long.img"], 0, 380_000),
    (["run", "far.img", "--steps", "768"], 0, 2_550_000),
    (["run", "returns.img", "--steps", "4096"], 0, 340_000),
    (["run", "between.img", "--steps", "3000"], 0, 450_000),
    (["run", "near.img", "--steps", "3072"], 0, 370_000),
    (["run", "hops.img", "--steps", "8192"], 0, 2_620_000),
    (["run", "prints.img", "--steps", "1536"], 0, 590_000),
    (["run", "calls.img", "--steps", "1536"], 0, 580_000),
)


def write_commands(folder):
    """The files of these commands. Of calm.code each 50th word is refused, and any of its words may stand between a move of sp and its probe."""
    mixed = steps.MIXED * 1_024
    for name, content in (
        ("mixed.code", mixed), ("mixed.img", formats.image(0, 0, mixed)), ("mixed.stream", formats.stream(0, mixed)),
        ("refused.code", (RET + bytes(4)) * 50), ("straight.img", formats.image(0, 0, NOP * 4_096)),
        ("long.img", formats.image(0, 0, NOP * 16_384)), ("straight.stream", formats.stream(1, NOP * 32_768)),
        ("large.stream", formats.stream(1, NOP * 32_768, 2, True)), ("refused.stream", formats.stream(1, bytes(4) + NOP * 32_767)),
        # Of sixteen modules a message each, in turn; a module that is sent twice; and messages that no module takes.
        ("turns.stream", b"".join(itertools.chain(*zip(*(formats.messages(module, NOP * 2_048) for module in range(formats.MODULES)))))),
        ("twice.stream", formats.stream(1, NOP * 16_384) * 2), ("strays.stream", formats.stream(1, RET) + formats.header(formats.CLOSE, 0, 5, 0, 0) * 2_048),
        ("one.code", RET), ("short.code", steps.MIXED * 40), ("first.code", bytes(4) + NOP * 65_535),
        # sub sp, sp, #16; add x0, x0, #1; nop; ldr xzr, [sp]
        ("late.code", code_of(0xD10043FF, 0x91000400, 0xD503201F, 0xF94003FF) * 2_048),
        # add x18, x21, w1, uxtw; ldar x0, [x18]; stlr x0, [x18]; nop
        ("ordered.code", code_of(0x8B2142B2, 0xC8DFFE40, 0xC89FFE40, 0xD503201F) * 2_048),
        # mov x21, x0, behind 49 times nop
        ("calm.code", (NOP * 49 + code_of(0xAA0003F5)) * 20),
        # stur x0, [sp, #-16]; then ldur x0, [sp, #-16], or -17, or ldp x0, x1, [sp, #-16], or -24
        *(
            (f"{name}.img", formats.image(0, 0, code_of(0xF81F03E0, *[word] * 1_023)))
            for name, word in (("singles", 0xF85F03E0), ("odd_singles", 0xF85EF3E0), ("pairs", 0xA97F07E0), ("odd_pairs", 0xA97E87E0))
        ),
        # movz w1, #1, lsl #16; add w1, w1, #16, lsl #12; str x2, [x21, w1, uxtw]; b .-8: a store in each 65,536 bytes; and in two of these, in turn:
        # movz w1, #256, lsl #16; str x2, [x21, w1, uxtw]; eor w1, w1, #0x10000; b .-8.
        ("far.img", formats.image(0, 0, code_of(0x52A00021, 0x11404021, 0xF8214AA2, 0x17FFFFFE))),
        ("near.img", formats.image(0, 0, code_of(0x52A02001, 0xF8214AA2, 0x52100021, 0x17FFFFFE))),
        # movz w1, #1, lsl #16; ldr x2, [x21, w1, uxtw]; b .-4: loads of the code; of the table; and of what was never written, in each 65,536 bytes.
        ("code.img", formats.image(0, 0, code_of(0x52A00021, 0xF8614AA2, 0x17FFFFFF))),
        ("table.img", formats.image(0, 0, code_of(0x52800101, 0xF8614AA2, 0x17FFFFFF))),
        ("fresh.img", formats.image(0, 0, code_of(0x52A00021, 0x11404021, 0xF8614AA2, 0x17FFFFFE))),
        # At word 0 a branch to word 900, and there one back.
        ("between.img", formats.image(0, 0, code_of(0x14000000 | 900, *[0xD503201F] * 899, 0x14000000 | -900 & 0x3FFFFFF, *[0xD503201F] * 123))),
        # bl .+8; b .+8; ret; b .-12
        ("returns.img", formats.image(0, 0, code_of(0x94000002, 0x14000002, 0xD65F03C0, 0x17FFFFFD))),
        *((f"{module}.stream", formats.stream(module, steps.MIXED * 256)) for module in range(8)),
        # Each branch goes to the next page, and those of the last one to the next word of the first.
        ("hops.img", formats.image(0, 0, code_of(*[0x14000400] * 7_168, *[0x14000000 | 1 - 7_168 & (1 << 26) - 1] * 1_023, 0x14000000))),
        ("prints.img", formats.image(0, 0, PRINTS)),
        # ldr x30, [x21, #16]; blr x30; b to the first.
        ("calls.img", formats.image(0, 0, code_of(0xF9400ABE, 0xD63F03C0, 0x17FFFFFE))),
    ):
        pathlib.Path(folder, name).write_bytes(content)


# What a client of `serve` sends, with the most instructions.
SERVED = (("mixed.stream", 640_000), ("strays.stream", 850_000))


def send(folder, name):
    """A client of `serve` that sends this file."""
    with connected(os.path.join(folder, f"socket-{name}")) as client, contextlib.suppress(OSError):
        client.sendall(pathlib.Path(folder, name).read_bytes())


def try_served(program, folder, least):
    """`serve` of a client. Answers what is told of that."""
    counts = []
    for name, most in SERVED:
        sender = threading.Thread(target=send, args=(folder, name))
        sender.start()
        status, count = steps.steps_of(folder, [program, "serve", "--socket", f"socket-{name}", "--connections", "1", "--verifiers", "1"])
        sender.join()
        if status or count - least > most:
            wrong("work", f"serve of {name}", (status, count - least), f"status 0 and at most {most} instructions")
        counts.append(f"serve {count - least}")
    return ", ".join(counts)


# ---- forms

# The fields of a pattern that make another form of an instruction, and not another operand.
FORM_FIELDS = {"sf", "op", "S", "sh", "opc", "N", "shift", "option", "i", "o2", "o0", "U", "opcode", "size", "mode", "L", "hw"}
# What the other fields are: x2 is written, or stored; x3, x4 and x5 are read; and branches go to the next word.
OPERANDS = {"Rd": 2, "Rt": 2, "Rn": 3, "Rm": 4, "Ra": 5, "Rt2": 5, "imm": 1, "imms": 2, "immr": 1}
# Of the classes whose work could be another one for other numbers: what is read.
OTHERS, COMPUTED = {"Rn": 6, "Rm": 7, "Ra": 8}, ("TwoSource", "CountLeadingZeros", "MultiplyAdd", "MultiplyHigh")
# Each class with the most instructions for a step.
STEP = {
    "AddSubImmediate": 90, "LogicalImmediate": 155, "MoveWide": 85, "PcRelative": 50, "Bitfield": 100, "LogicalShifted": 105, "AddSubShifted": 130,
    "AddSubExtended": 100, "ConditionalCompare": 80, "ConditionalSelect": 70, "TwoSource": 90, "CountLeadingZeros": 50, "MultiplyAdd": 70,
    "MultiplyHigh": 50, "Nop": 30, "Branch": 85, "ConditionalBranch": 90, "CompareBranch": 95, "TestBranch": 100, "UnsignedOffset": 115,
    "SignedOffset": 135, "RegisterOffset": 125, "Pair": 165, "Ordered": 90,
}
# The most for a check of a file of so many words; those that are looked at one by one have more.
CHECKED, CHECK, LOOKED_AT = 128, 18_500, 27_500
SLOW = ("Branch", "ConditionalBranch", "CompareBranch", "TestBranch", "Ordered")
# How many words of a form stand together, and how often they are carried out before a byte is printed.
TOGETHER, ROUNDS = 16, 8
# movz w1, #4096, lsl #16; add x18, x21, w1, uxtw; add sp, x21, w1, uxtw; x3, x4 and x5 are -8, 7 and 1, and x6, x7 and x8 1, 0 and -1; movz x12, #1.
BEGIN = (0x52A20001, 0x8B2142B2, 0x8B2142BF, 0x928000E3, 0xD28000E4, 0xD2800025, 0xD2800026, 0xD2800007, 0x92800008, 0xD280002C)
# add x10, x12, #0; and behind the words subs x10, x10, #1; b.ne to the first of them; ldr x30, [x21, #8]; blr x30.
COUNT, AGAIN = 0x9100018A, (0xF100054A, 0x54000001 | (-TOGETHER - 1 & 0x7FFFF) << 5, 0xF94006BE, 0xD63F03C0)
# ldr x30, [x21]; blr x30.
END = (0xF94002BE, 0xD63F03C0)


def operands_of(name, chosen):
    """What the fields of a pattern are that make no form: of an access x18 is the base, or, where it is changed, sp, by 0; or x21 and w1."""
    if name == "RegisterOffset":
        return OPERANDS | {"Rn": 21, "Rm": 1}
    if name == "SignedOffset" and chosen["mode"] != 0 or name == "Pair" and chosen["mode"] != 2:
        return OPERANDS | {"Rn": 31, "imm": 0}
    return OPERANDS | ({"Rn": 18} if name in ("Pair", "Ordered", *RULES.SINGLES) else {})


# Words that stand together, of which one meets the need that the first opens, or has one that is near it; with the most for a check of them.
NEEDS = (
    ((0xA8C17BFD, 0x8B3E42BE), 22_500), ((0xF94003FE, 0x8B3E42BE), 22_500), ((0xF94006BE, 0xD63F03C0), 22_500), ((0xD10043FF, 0xF94003FF), 27_000),
    ((0x910043FF, 0xA9007BFD), 27_000), ((0xA9BF7BFD, 0xF90007E0), 18_500), ((0x94000001, 0xD503201F), 22_500), ((0xD63F0240, 0xD503201F), 18_500),
    ((0xD65F03C0, 0xD4200000), 18_500), ((0xD10043FF, 0xD503201F, 0xD503201F, 0xF94003FF), 27_000), ((0x910043FF, 0x91000400, 0xF9400240, 0xA9007BFD), 27_000),
)


def filled(name, chosen):
    """A word of a pattern with these values of some fields, and the others as they are where they make no form."""
    _, fixed, places = (RULES.CLASSES | RULES.ORDERED)[name]
    values = operands_of(name, chosen) | chosen
    return fixed | sum(values.get(field, 0) << place for field, place, _ in places)


def forms():
    """Each form of each class, but BRK and branches to a register, as a lawful word, with its class."""
    for name, (_, _, places) in (RULES.CLASSES | RULES.ORDERED).items():
        fields = FORM_FIELDS | ({"cond"} if name == "ConditionalBranch" else set())
        for values in itertools.product(*(range(1 << width) for field, _, width in places if field in fields)):
            chosen = dict(zip((field for field, _, _ in places if field in fields), values))
            for more in ({}, OTHERS) if name in COMPUTED else ({},):
                word = filled(name, chosen | more)
                if name in STEP and not RULES.faults([word, RULES.NOP], 2):
                    yield name, word


def some_steps(name):
    """Lawful words of a class with any numbers, and registers as those of a form have; none for a branch."""
    source, found = random.Random(name), []
    _, _, places = (RULES.CLASSES | RULES.ORDERED)[name]
    while len(found) < TOGETHER:
        chosen = {field: source.getrandbits(width) for field, _, width in places if field not in RULES.REGISTERS}
        word = filled(name, chosen)
        if not RULES.faults([word, RULES.NOP], 2):
            found.append(word)
    return tuple(found)


def far_accesses():
    """Stores and loads in each sixteenth of a slot: movz w1, #4096 * k, lsl #16; add x18, x21, w1, uxtw; str x2, [x18, #16]; ldr x2, [x18, #16];
    stp x2, x3, [x18, #32]; ldp x2, x9, [x18, #32]; strb w2, [x21, w1, uxtw]; ldr w2, [x21, w1, uxtw]."""
    accesses = (0xF9000A42, 0xF9400A42, 0xA9020E42, 0xA9422642, 0x38214AA2, 0xB8614AA2) * 2
    return [(0x52A00001 | 4096 * part << 5, 0x8B2142B2, *accesses, RULES.NOP, RULES.NOP) for part in range(1, 16)]


def carried():
    """What is carried out together: a form again and again, words of a class, or accesses far from others; with the class. The last ones change
    through what the others go."""
    same = [(name, (form,) * TOGETHER) for name, form in forms()]
    some = [(name, some_steps(name)) for name in STEP if name not in RULES.DIRECT]
    return same + some + [("UnsignedOffset", words) for words in far_accesses()]


def some_of(name):
    """Lawful words of a class with any operands."""
    source, found = random.Random(name), []
    _, fixed, places = (RULES.CLASSES | RULES.ORDERED)[name]
    while len(found) < CHECKED // 2 - 1:
        word = fixed | sum(source.choice((source.getrandbits(width), OPERANDS.get(field, 0) % (1 << width))) << place for field, place, width in places)
        if not RULES.faults([word, RULES.NOP], 2):
            found.append(word)
    return tuple(found)


def write_forms(folder, drawn):
    """An image for the words of each form and class, carried out twice: the first time once each, since code is looked at where it is first run, and then
    so often."""
    blocks = [word for _, words in drawn for word in (COUNT, *words, *AGAIN)]
    # subs xzr, x12, #8; b.eq to the end; movz x12, #8; b to the first block.
    twice = (0xF100019F | ROUNDS << 10, 0x54000060, 0xD280000C | ROUNDS << 5, 0x14000000 | -len(blocks) - 3 & 0x3FFFFFF)
    pathlib.Path(folder, "forms.img").write_bytes(formats.image(0, 0, code_of(*BEGIN, *blocks, *twice, *END), 2))


def write_checked(folder, profile):
    """Files of code of each form, of each class and of each need, that are lawful by a profile, with the most instructions for a check of each."""
    files, alone = [], [(name, (form,)) for name, form in forms()] + [(name, some_of(name)) for name in RULES.CLASSES | RULES.ORDERED]
    groups = [(group, LOOKED_AT if name in SLOW else CHECK) for name, group in alone] + list(NEEDS)
    for number, (group, most) in enumerate(groups):
        times = (CHECKED - 1) // len(group)
        words = [*group * times, *[RULES.NOP] * (CHECKED - times * len(group))]
        if not RULES.faults(words, profile):
            name = f"profile-{profile}-{number}.code"
            pathlib.Path(folder, name).write_bytes(code_of(*words))
            files.append((name, words, most))
    return files


def compare(what, rows, came, wanted):
    """A run whose status and output are these, with as many writes as there are rows, or twice as many: of the last ones each came after at
    most so many instructions as its row says."""
    status, _, parts, output = came
    if (status, output) != wanted or len(parts) % len(rows):
        wrong("work", what, (status, len(parts), output[:300]), (wanted[0], f"{len(rows)} writes", wanted[1][:300]))
    # What comes before the first write is the program's begin, too.
    for (row, most), part in list(zip(rows, parts[-len(rows) :]))[1:]:
        if part > most:
            wrong("work", f"{what}, {row}", part, f"at most {most} instructions")


# ---- texts

# fadd, ldr q0, mrs, svc, ldxr, cas, ldadd, udf; and what has mends: umull, adc, extr, rev, prfm, ldpsw, ldnp, stnp, ldtr, rbit with clz.
LEFT_OUT = (
    0x1E602800, 0x3DC00000, 0xD53B4200, 0xD4000001, 0xC85F7C20, 0xC8A07C41, 0xF8210040, 0x00000000,
    0x9BA27C20, 0x9A020000, 0x93C20820, 0xDAC00C20, 0xF9800000, 0x69400440, 0xA8400440, 0xA8000440, 0xF8400840, 0xDAC00020, 0xDAC01000,
)
# Words, their statuses, and the most instructions of a command and of a word.
TOLD = ((["disassemble", "--check"], {0}, 20_000, 5_800), (["check", "--all"], {0, 1}, 20_000, 11_500))
FEW = 24


def texts():
    """Some words of each class, with registers that rules name, evenly taken; and some that no pattern has."""
    yield "others", LEFT_OUT
    # ldar x0, [x18]; stlr w1, [x23]; ldarb w2, [sp]; ldar x30, [x24]
    yield "Ordered", (0xC8DFFE40, 0x889FFEE1, 0x08DFFFE2, 0xC8DFFF1E)
    for name in RULES.CLASSES:
        drawn = RULES.family(name, RULES.few_values(name))
        yield name, drawn[:: -(-len(drawn) // FEW)]


# ---- all of it


def counted(program, folder, lines):
    """What comes of each command, several at once."""
    with concurrent.futures.ThreadPoolExecutor(len(os.sched_getaffinity(0))) as pool:
        return list(pool.map(lambda words: steps.parts_of(folder, [program, *words]), lines))


def try_forms(program, folder):
    """Each form of an instruction is carried out and, with needs, checked by both profiles. Answers how many there are."""
    drawn = carried()
    write_forms(folder, drawn)
    checked = [write_checked(folder, profile) for profile in (1, 2)]
    lines = [["run", "forms.img", "--steps", "1000000"]]
    lines += [["check", "--profile", str(profile), *(name for name, _, _ in files)] for profile, files in enumerate(checked, 1)]
    run, *checks = counted(program, folder, lines)
    compare("run", [(f"{name}, word {words[0]:08x}", STEP[name] * TOGETHER * ROUNDS) for name, words in drawn], run, (0, bytes(2 * len(drawn))))
    for profile, (files, came) in enumerate(zip(checked, checks), 1):
        lawful = "".join(f"{name}: lawful, {len(words)} words\n" for name, words, _ in files)
        rows = [(f"word {words[0]:08x} and others", most) for _, words, most in files]
        compare(f"check --profile {profile}", rows, came, (0, lawful.encode()))
    return len(drawn), len(checked[1])


def try_commands(program, folder, least):
    """The commands of WORK, and those of TOLD for some words of each class. Answers what is told of the first."""
    write_commands(folder)
    rows = [(words, {status}, most) for words, status, most in WORK]
    for name, some in texts():
        pathlib.Path(folder, f"{name}.code").write_bytes(code_of(*some))
        rows += [([*words, f"{name}.code"], statuses, most + each * len(some)) for words, statuses, most, each in TOLD]
    found = counted(program, folder, [words for words, _, _ in rows])
    for (words, statuses, most), (status, count, _, _) in zip(rows, found):
        if status not in statuses or count - least > most:
            wrong("work", " ".join(words)[:100], (status, count - least), f"status {statuses} and at most {most} instructions")
    return ", ".join(f"{words[0]} {count - least}" for (words, _, _), (_, count, _, _) in zip(WORK, found))


def try_work(program):
    """How many instructions commands execute: on 8,192 words, or on fewer where one costs more; on each form of an instruction, which is carried
    out and checked; and on some words of each class, which are listed and explained."""
    if not shutil.which("cc"):
        print("work: left out, since cc isn't here")
        return
    with tempfile.TemporaryDirectory() as folder:
        steps.build(folder)
        _, least = steps.steps_of(folder, [program, "--version"])
        if least is None:
            print("work: left out, since the system lets nobody trace here")
            return
        counts, (carried, checked) = try_commands(program, folder, least), try_forms(program, folder)
        served = try_served(program, folder, least)
    print(f"work: instructions of {len(WORK)} commands beyond the {least} of `--version`: {counts}, {served}; {carried} forms carried out, {checked} checked; listings and explanations of each class")
