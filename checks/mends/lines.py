"""Drawn lines of assembly, and what the rewriter of examples/guard writes in their place, both carried out under qemu-user for checks/mends/run.

A case is a few lines of what gcc writes: accesses of all sizes by each way to tell an address, through registers and sp, which loads,
sums and copies of addresses change between; writes of sp; and what the profile doesn't have. Both begin with the same numbers in all registers,
the same flags and the same memory, several times, and have to leave the same, but for the registers that the rewriter takes for itself. After
ADCS, SBCS and NGCS the flag C alone counts, as examples/guard/README.md says. Registers of the window hold addresses of memory that is compared,
those of the table addresses of numbers that are such addresses again.
"""

import random
import re
import struct
import subprocess
import sys

BASE, WINDOW, SIZE, TABLE, TABLE_SIZE = 0x1000000000, 0x80000, 0x4000, 0xC0000, 0x400
ADDRESSES, TABLES, INDEXES = (1, 2, 3, 19), (20, 25), (7, 8, 9, 10)
VALUES = (0, 4, 5, 6, 11, 12, 13, 14, 26, 27, 28, 29)
EDGES = (0, 1, 2, 0x7FFFFFFF, 0x80000000, 0xFFFFFFFF, 0x7FFFFFFFFFFFFFFF, 0x8000000000000000, 0xFFFFFFFFFFFFFFFF)
STATES = 4
# Of each access the size of what it moves, by its power of two, and the kinds of its register.
SINGLES = {"ldr": "3x 2w", "ldrb": "0w", "ldrh": "1w", "ldrsb": "0x 0w", "ldrsh": "1x 1w", "ldrsw": "2x", "str": "3x 2w", "strb": "0w", "strh": "1w"}
NEAR = {"ldr": "ldur", "ldrb": "ldurb", "ldrh": "ldurh", "ldrsb": "ldursb", "ldrsh": "ldursh", "ldrsw": "ldursw", "str": "stur", "strb": "sturb", "strh": "sturh"}
PAIRS = {"ldp": "3x 2w", "stp": "3x 2w", "ldpsw": "2x"}
BEGIN = f"""    .macro ENTER
    .irp n, 19, 21, 23, 25, 27, 29
    stp x\\n, x30, [sp, #-16]!
    .endr
    .irp n, 20, 22, 24, 26, 28
    str x\\n, [sp, #-16]!
    .endr
    adrp x9, kept
    mov x10, sp
    str x10, [x9, :lo12:kept]
    ldp x9, x10, [x0, #248]
    mov sp, x9
    msr nzcv, x10
    .irp n, {", ".join(str(it) for it in range(1, 31))}, 0
    ldr x\\n, [x0, #8 * \\n]
    .endr
    .endm
    .macro LEAVE
    adrp x16, put
    add x16, x16, :lo12:put
    .irp n, {", ".join(str(it) for it in range(31) if it != 16)}
    str x\\n, [x16, #8 * \\n]
    .endr
    mov x0, sp
    mrs x1, nzcv
    stp x0, x1, [x16, #248]
    adrp x9, kept
    ldr x10, [x9, :lo12:kept]
    mov sp, x10
    .irp n, 28, 26, 24, 22, 20
    ldr x\\n, [sp], #16
    .endr
    .irp n, 29, 27, 25, 23, 21, 19
    ldp x\\n, x30, [sp], #16
    .endr
    ret
    .endm
    .bss
    .balign 8
kept: .skip 8
    .text
"""
DRIVER = """#define _GNU_SOURCE
#include <stdint.h>
#include <stdio.h>
#include <string.h>
#include <sys/mman.h>
typedef void body(const uint64_t *before);
extern body *const bodies[];
extern const uint64_t flags[]; /* of each case those that count */
uint64_t put[33];
static uint64_t before[33], after[2][33];
static uint8_t first[SIZE], last[2][SIZE];
int main(void) {
    uint8_t *slot = mmap((void *)BASE, 1 << 20, PROT_READ | PROT_WRITE, MAP_PRIVATE | MAP_ANONYMOUS, -1, 0), *window = slot + WINDOW - SIZE / 2;
    if (slot != (uint8_t *)BASE || fread(slot + TABLE, 1, TABLE_SIZE, stdin) != TABLE_SIZE || fread(first, 1, SIZE, stdin) != SIZE) return 2;
    for (long at = 0; bodies[at]; at += 2) {
        printf("%ld\\n", at / 2), fflush(stdout);
        for (int state = 0; state < STATES; state++) {
            if (fread(before, sizeof before, 1, stdin) != 1) return 2;
            for (int which = 0; which < 2; which++) {
                memcpy(window, first, SIZE);
                bodies[at + which](before);
                memcpy(after[which], put, sizeof put);
                memcpy(last[which], window, SIZE);
            }
            for (int n = 0; n < 33; n++) {
                uint64_t differ = (after[0][n] ^ after[1][n]) & (n == 32 ? flags[at / 2] : ~(uint64_t)0);
                if (!differ || (n >= 15 && n <= 18) || (n >= 22 && n <= 24) || n == 30) continue;
                printf("register %d, or sp or flags: %#llx and %#llx\\n", n, (unsigned long long)after[0][n], (unsigned long long)after[1][n]);
                return 1;
            }
            if (memcmp(last[0], last[1], SIZE)) return printf("memory\\n"), 1;
        }
    }
    return 0;
}
"""


def stop(text):
    sys.exit(f"mends: examples/guard: {text}")


class Case:
    """A case's lines; and which registers hold addresses so far."""

    def __init__(self, source):
        self.source, self.lines, self.flags, self.addresses = source, [], 0xF0000000, set(ADDRESSES)
        kinds = (self.access, self.access, self.pair, self.address, self.by_table, self.again, self.value, self.value, self.in_link, self.near_sp)
        for _ in range(source.choice((1, 1, 2, 3, 4))):
            source.choice(kinds)()
        if source.random() < 0.1:
            self.far_sp()

    def add(self, name, *operands):
        self.lines.append(f"{name} {', '.join(operands)}")

    def number(self, it):
        return f"{self.source.choice(('#', ''))}{it}"

    def base(self):
        return self.source.choice(["sp", *(f"x{it}" for it in sorted(self.addresses))])

    def data(self, kind, count, others=()):
        """Registers for what an access moves, which may hold an address. It no longer does."""
        some = [it for it in (*VALUES, *VALUES, *ADDRESSES, *INDEXES[2:]) if f"x{it}" not in others]
        while len(set(found := self.source.sample(some, count))) < count:
            pass
        return [f"{kind}{it}" for it in found]

    def write(self, name, data):
        if name.startswith("ld"):
            self.addresses -= {int(it[1:]) for it in data}

    def access(self):
        name, source = self.source.choice(list(SINGLES)), self.source
        size, kind = source.choice(SINGLES[name].split())
        base, size, way = self.base(), int(size), source.randrange(7)
        data = self.data(kind, 1, [base] if way in (3, 4) else [])
        if name == "ldr" and source.random() < 0.15:
            name, data = "prfm", ["PLDL1KEEP"]
            way, size = (0, 1, 2, 5, 6)[way % 5], 3
        near, far = source.randrange(-256, 256), source.randrange(200) << size
        index, wide = source.choice(INDEXES[:2]), source.choice((("w", "uxtw"), ("w", "sxtw"), ("x", "lsl"), ("x", "sxtx")))
        shift = source.choice(("", f" {self.number(size)}")) if wide[1] != "lsl" else f" {self.number(size)}"
        if wide[1] == "sxtx" and name == "prfm":
            wide, shift = ("x", "lsl"), f" {self.number(size)}"
        ways = (
            [f"[{base}]"],
            [f"[{base}, {self.number(far)}]"],
            [f"[{base}, {self.number(near)}]"],
            [f"[{base}, {self.number(near)}]!"],
            [f"[{base}]", self.number(near)],
            [f"[{base}, x{index}]"],
            [f"[{base}, {wide[0]}{index}, {wide[1]}{shift}]"],
        )
        self.add({"prfm": "prfum"}.get(name, NEAR.get(name)) if way == 2 else name, *data, *ways[way])
        self.write(name, data if name != "prfm" else [])

    def pair(self):
        name, source = self.source.choice(list(PAIRS)), self.source
        size, kind = source.choice(PAIRS[name].split())
        base, by = self.base(), source.randrange(-64, 64) << int(size)
        way = source.randrange(2 if name == "ldpsw" else 4)
        data = self.data(kind, 2, [base] if way > 1 or name == "ldpsw" else [])
        ways = ([f"[{base}]"], [f"[{base}, {self.number(by)}]"], [f"[{base}, {self.number(by)}]!"], [f"[{base}]", self.number(by)])
        self.add(name, *data, *ways[way])
        self.write(name, data)

    def address(self, *into):
        """An address by another one."""
        to, of = into[0] if into else self.source.choice(ADDRESSES), self.source.choice([*sorted(self.addresses), 31])
        if of == 31 or self.source.random() < 0.7:
            self.add(self.source.choice(("add", "sub")), f"x{to}", "sp" if of == 31 else f"x{of}", self.number(8 * self.source.randrange(16)))
        else:
            self.add("mov", f"x{to}", f"x{of}")
        self.addresses.add(to)

    def again(self):
        """Accesses through one register, which a load or a sum changes between."""
        if len(self.addresses) < 2:
            return
        it, other = self.source.sample(sorted(self.addresses), 2)
        self.add("ldr", "x0", f"[x{it}]")
        change = self.source.choice((self.address, self.by_table, lambda *_: self.add("ldp", "x4", f"x{it}", f"[x{TABLES[0]}]")))
        change(it, other)
        self.add("ldr", "x5", f"[x{it}]")

    def by_table(self, *into):
        """Addresses of the table."""
        base = f"x{self.source.choice(TABLES)}"
        first, second = into or self.source.sample(ADDRESSES, 2)
        if self.source.random() < 0.5:
            self.add("ldr", f"x{first}", f"[{base}, {self.number(8 * self.source.randrange(32))}]")
        else:
            self.add("ldp", f"x{first}", f"x{second}", f"[{base}, {self.number(8 * self.source.randrange(32))}]")
            self.addresses.add(second)
        self.addresses.add(first)

    def value(self):
        """What the profile doesn't have."""
        kind, source = self.source.choice("xw"), self.source
        to, one, other, third = (f"{kind}{source.choice(VALUES)}" for _ in range(4))
        other = one if source.random() < 0.2 else other
        bits = source.randrange(64 if kind == "x" else 32) * (source.random() > 0.1)
        name = source.choice("adc adcs sbc sbcs ngc ngcs extr ror rev rev16 rev32 rbit ctz mull maddl msubl mnegl".split())
        one = f"{kind}zr" if source.random() < 0.1 else one
        if re.fullmatch("(adc|sbc|ngc)s?", name):
            self.add(name, *([to, one] if name.startswith("ngc") else [to, one, other]))
            self.flags = 0x20000000 if name.endswith("s") else self.flags
        elif name in ("extr", "ror"):
            self.add(name, *([to, one, other] if name == "extr" else [to, one]), self.number(bits))
        elif name == "ctz":
            self.add("rbit", to, other), self.add("clz", to, to)
        elif name.startswith("r"):
            self.add(name, *(f"x{it[1:]}" if name == "rev32" else it for it in (to, one)))
        else:
            long, short = lambda it: f"x{it[1:]}", lambda it: f"w{it[1:]}"
            self.add(source.choice("us") + name, long(to), short(one), short(other), *([long(third)] if name in ("maddl", "msubl") else []))

    def in_link(self):
        """A number in x30, also from the stack, which isn't a return address; sometimes it is used much later."""
        kind, value = self.source.choice("xw"), self.source.choice(VALUES)
        self.add("ldr", f"{kind}30", f"[{self.base()}, {self.number(8 * self.source.randrange(16))}]")
        for _ in range(50 if self.source.random() < 0.1 else 0):
            self.add("add", "x5", "x5", "1")
        self.add(self.source.choice(("eor", "add")), f"{kind}{value}", f"{kind}30", f"{kind}{value}")

    def near_sp(self):
        self.add(self.source.choice(("add", "sub")), "sp", "sp", self.number(16 * self.source.randrange(32)))

    def far_sp(self):
        source, of = self.source, f"x{self.source.choice(sorted(self.addresses) or [20])}"
        self.add(
            *source.choice(
                (
                    ("mov", "sp", of),
                    ("and", "sp", of, "#-16"),
                    ("and", "sp", of, "#-64"),
                    (source.choice(("add", "sub")), "sp", of, self.number(16 * source.randrange(256))),
                    (source.choice(("add", "sub")), "sp", "sp", self.number(source.choice((0, 2176, 4080, 4095, 4096, 77824, 126976)))),
                    (source.choice(("add", "sub")), "sp", source.choice(("sp", of)), f"x{source.choice(INDEXES[:2])}"),
                )
            )
        )

    def state(self):
        source = self.source
        numbers = [source.choice(EDGES) if source.random() < 0.5 else source.getrandbits(64) for _ in range(31)]
        numbers[21] = BASE
        for it in ADDRESSES:
            numbers[it] = BASE + WINDOW + 8 * source.randrange(-64, 64)
        for it in TABLES:
            numbers[it] = BASE + TABLE + 8 * source.randrange(64)
        for it in INDEXES:
            numbers[it] = source.randrange(64)
        return struct.pack("<33Q", *numbers, BASE + WINDOW + 16 * source.randrange(-32, 32), source.getrandbits(4) << 28)


def in_their_place(guard, flags, cases, folder):
    """What the rewriter writes in place of each case's lines, which it gets as a function with a return."""
    (folder / "drawn.s").write_text("".join(f"case{number}:\n" + "".join(f"\t{it}\n" for it in (*case.lines, "ret")) for number, case in enumerate(cases)))
    done = subprocess.run([guard, *flags, folder / "drawn.s", folder / "made.s"], capture_output=True, text=True, timeout=600)
    if done.returncode:
        stop(f"it refuses a drawn line: {done.stderr}")
    return [part.partition(":\n")[2].rstrip().removesuffix("ret") for part in (folder / "made.s").read_text().split("case")[1:]]


def assembly(cases, made):
    """A function of each case's lines, and one of what stands in their place."""
    text = [BEGIN]
    for number, (case, other) in enumerate(zip(cases, made)):
        text += [f"w{number}: ENTER", *case.lines, "LEAVE", f"m{number}: ENTER", other, "LEAVE"]
    text += ["    .section .data.rel.ro", "    .balign 8", "    .globl bodies, flags", "bodies:"]
    text += [f"    .quad w{number}, m{number}" for number in range(len(cases))] + ["    .quad 0", "flags:"]
    return "\n".join([*text, *(f"    .quad {case.flags}" for case in cases), '    .section .note.GNU-stack,"",%progbits']) + "\n"


def judge(program, folder):
    """What the rewriter wrote is lawful."""
    done = subprocess.run(["aarch64-linux-gnu-as", "-o", folder / "made.o", folder / "made.s"], capture_output=True, text=True, timeout=600)
    if done.returncode:
        stop(f"what it writes can't be assembled: {done.stderr[:600]}")
    subprocess.run(["aarch64-linux-gnu-objcopy", "-O", "binary", "-j", ".text", folder / "made.o", folder / "made.code"], check=True, timeout=600)
    told = subprocess.run([program, "check", "--explain", folder / "made.code"], capture_output=True, text=True, timeout=600).stdout
    if not told.startswith("lawful, "):
        stop(f"what it writes for drawn lines isn't lawful: {told}")


def compare(program, guard, flags, count, folder):
    """Draws so many cases and compares them. Stops where one of them differs."""
    source = random.Random(f"lines {flags}")
    cases = [Case(source) for _ in range(count)]
    (folder / "lines.s").write_text(assembly(cases, made := in_their_place(guard, flags, cases, folder)))
    judge(program, folder)
    (folder / "lines.c").write_text(DRIVER)
    numbers = [f"-D{name}={value}" for name, value in {"BASE": BASE, "WINDOW": WINDOW, "SIZE": SIZE, "TABLE": TABLE, "TABLE_SIZE": TABLE_SIZE, "STATES": STATES}.items()]
    subprocess.run(["aarch64-linux-gnu-gcc", "-O1", "-static", *numbers, folder / "lines.c", folder / "lines.s", "-o", folder / "lines"], check=True, timeout=600)
    table = struct.pack(f"<{TABLE_SIZE // 8}Q", *(BASE + WINDOW + 8 * source.randrange(-64, 64) for _ in range(TABLE_SIZE // 8)))
    states = b"".join(case.state() for case in cases for _ in range(STATES))
    done = subprocess.run(["qemu-aarch64", folder / "lines"], input=table + source.randbytes(SIZE) + states, capture_output=True, timeout=600)
    if done.returncode:
        told = done.stdout.decode().splitlines()
        number = int([it for it in told if it.isdigit()][-1])
        stop(f"status {done.returncode}, {told[-1]}: {cases[number].lines}\nin their place:\n{made[number]}")
