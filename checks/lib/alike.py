"""That what is told of a word hangs on no number of its registers, but for those that rules or mends name, and on which of them are the same."""

import itertools
import json
import re
import struct
import subprocess
import sys

NOP = 0xD503201F
# The registers that rules or mends name.
NAMED = (16, 17, 18, 21, 22, 23, 24, 30, 31)
ALL, SOME, RESULTS, DATA = range(32), (*NAMED, 0, 5, 8), (5, 18, 22, 23, 24, 30, 31), (6, 16, 22, 30, 31)
D, N, M, A = 0, 5, 16, 10  # the places of a word's registers
WIDTHS = (0, 1 << 31)
# What a shift of an operand is, with some numbers of bits.
SHIFTS = tuple(shift << 22 | amount << 10 for shift, amount in ((0, 0), (0, 8), (1, 8), (2, 31), (3, 13)))


def both(*words):
    """These words of both widths."""
    return [wide | word for wide in WIDTHS for word in words]


# Of each kind of words: the bits that they have besides their registers; and the registers at each of their places.
KINDS = (
    (both(*(kind << 29 | 0x1A000000 for kind in range(4))), {D: ALL, N: ALL, M: ALL}),  # ADC, ADCS, SBC, SBCS
    ([*(0x93C00000 | bits << 10 for bits in (1, 8, 13, 16, 31, 32, 45, 63)), *(0x13800000 | bits << 10 for bits in (1, 8, 16, 31))], {D: ALL, N: ALL, M: ALL}),  # EXTR
    ([0x9B200000, 0x9B208000, 0x9BA00000, 0x9BA08000, *both(0x1B000000, 0x1B008000)], {D: SOME, N: SOME, M: SOME, A: SOME}),  # SMADDL and its kin, MADD, MSUB
    (both(*(0x5AC00000 | code << 10 for code in range(6))), {D: ALL, N: ALL}),  # RBIT, REV and their kin, CLZ, CLS
    (both(*(kind << 29 | 0x0A000000 | negated << 21 | shift for kind in range(4) for negated in (0, 1) for shift in SHIFTS)), {D: RESULTS, N: ALL, M: ALL}),  # AND and its kin
    (both(*(kind << 29 | 0x0B000000 | shift for kind in range(4) for shift in SHIFTS[:4])), {D: RESULTS, N: ALL, M: ALL}),  # ADD, SUB
    (both(*(kind << 30 | 0x0B200000 | option << 13 | bits << 10 for kind in (0, 1) for option in range(8) for bits in (0, 3))), {D: RESULTS, N: ALL, M: ALL}),  # extended
    (both(*(kind << 30 | 0x1A800000 | adds << 10 | condition << 12 for kind in (0, 1) for adds in (0, 1) for condition in (1, 11))), {D: RESULTS, N: ALL, M: ALL}),  # CSEL and its kin
    (both(*(0x1AC00000 | code << 10 for code in (2, 3, 8, 9, 10, 11))), {D: RESULTS, N: ALL, M: ALL}),  # UDIV and its kin
    (both(*(kind << 29 | 0x11000000 | number << 10 for kind in range(4) for number in (0, 1, 8, 4095, 4097))), {D: ALL, N: ALL}),  # ADD, SUB of a number
    (both(*(kind << 29 | 0x12000000 | number << 10 for kind in range(4) for number in (0, 7, 1 << 6 | 15))), {D: ALL, N: ALL}),  # AND and its kin of a number
    ([*(kind << 29 | 0x93400000 | number << 10 for kind in range(3) for number in (7, 8 << 6 | 15, 60 << 6 | 3)), *(kind << 29 | 0x13000000 | 8 << 16 | 15 << 10 for kind in range(3))], {D: ALL, N: ALL}),  # UBFM and its kin
    ([size << 30 | 0x39000000 | opc << 22 | offset << 10 for size, opc in itertools.product(range(4), range(4)) for offset in (0, 5, 8)], {D: ALL, N: ALL}),  # loads and stores
    ([size << 30 | 0x38000000 | opc << 22 | offset << 12 | mode << 10 for size, opc, mode in itertools.product(range(4), range(4), range(4)) for offset in (0, 8, 504)], {D: ALL, N: ALL}),
    ([size << 30 | 0x38200800 | opc << 22 | option << 13 | scaled << 12 for size, opc, option, scaled in itertools.product(range(4), range(4), (2, 3, 6, 7), (0, 1))], {D: DATA, N: ALL, M: ALL}),
    ([size << 30 | 0x28000000 | mode << 23 | loads << 22 | offset << 15 for size, mode, loads in itertools.product(range(3), range(4), (0, 1)) for offset in (0, 8)], {D: SOME, N: ALL, A: SOME}),
)
REGISTER = re.compile(r"\b([xw])(\d+)\b")
LETTERS = "abcd"


def numbers_of(registers):
    """Those of these registers that no rule names, each once."""
    return tuple(dict.fromkeys(it for it in registers if it not in NAMED))


def form_of(text, word, place, numbers):
    """A text that is told of a word at a place: with letters for these registers, for the word and for its place."""
    letters = {str(number): "{" + letter + "}" for number, letter in zip(numbers, LETTERS)}
    text = REGISTER.sub(lambda it: it[1] + letters.get(it[2], it[2]), text.replace("{", "{{").replace("}", "}}"))
    return text.replace(f"word {place} ", "word {place} ").replace(f"{word:08x}", "{word:08x}").replace(f"{address_of(place):#018x}", "{address:#018x}")


def address_of(place):
    return 0x100010000 + 4 * place


def told_of(program, folder, words):
    """What is told of each word that is refused, by its place. Behind each stands a NOP, by which no need of it is met."""
    (folder / "alike.code").write_bytes(b"".join(struct.pack("<2I", word, NOP) for word, _ in words))
    told = subprocess.run([program, "check", "--all", "--format", "json", folder / "alike.code"], capture_output=True, timeout=600)
    return {it["word"]: it["explanation"] for it in json.loads(told.stdout)["files"][0].get("refused", [])}


def words_of(bits, places):
    """All words with these bits, each with its registers."""
    for registers in itertools.product(*places.values()):
        yield bits | sum(register << place for place, register in zip(places, registers)), registers


def compare_kind(words, told):
    """Stops where of two of these words something else is told, but for the letters."""
    forms = {}
    for place, (word, registers) in enumerate(words):
        numbers, text = numbers_of(registers), told.get(2 * place, "lawful")
        key = tuple(it if it in NAMED else -numbers.index(it) for it in registers)
        first, form = forms.get(key) or forms.setdefault(key, (word, form_of(text, word, 2 * place, numbers)))
        wanted = form.format(place=2 * place, word=word, address=address_of(2 * place), **dict(zip(LETTERS, numbers)))
        if text != wanted:
            sys.exit(f"mends/words: {word:08x}: {text!r}, and by {first:08x} it is {wanted!r}")


def compare_alike(program, folder):
    """Compares all of them. Answers how many they are."""
    count = 0
    for bits, places in ((bits, places) for kinds, places in KINDS for bits in kinds):
        words = [*words_of(bits, places)]
        compare_kind(words, told_of(program, folder, words))
        count += len(words)
    return count
