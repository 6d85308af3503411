"""Sentences of documents that checks cite beside what bears them out, behind the document's name in a comment, as `COMMANDS:` of
docs/COMMANDS.md, `HEADER:` of include/lfi_verifier.h, or `HELP:` of what `lfiload COMMAND --help` says: for checks/program.

A citation goes on in the lines of the comment that begin with three spaces. What it cites has to stand in the document. All is cited of
docs/COMMANDS.md, docs/HOST.md, docs/C.md and the header's comments, but for headings, examples and pieces of code, which are carried out or
compiled, the heads of tables, and the rows of HOST that checks/native compares with what the library tells; and of the helps, but for
their examples.
"""

import re
import sys

from lib import sentences, tree

CHECKS = tree.TOP / "checks"
DOCUMENTS = {name: sentences.DOCUMENTS / f"{name}.md" for name in ("C", "COMMANDS", "HOST", "PROFILE")} | {
    "HEADER": tree.TOP / "include" / "lfi_verifier.h",
    "HELP": tree.CRATES / "lfi_command_line" / "src" / "help.rt",
}
CITED = re.compile(rf"^ *(?:#|//) ({'|'.join(DOCUMENTS)}): (.*(?:\n *(?:#|//)   .*)*)", re.M)


# What no row shows, since it is advice, or of a processor, a kernel or a law: compared by its words alone. So a change of it has to be made
# twice, and is looked at.
TOLD = {
    "HOST": """
For anyone who runs lawful code on an AArch64 processor. Proved is a law of definitions (`never_escapes` of lfi_confinement), of lawful code
that starts from lawful registers on the map below.

It never accesses a byte outside of its slot and guards, leaves the slot but by calls of its runtime, or carries out a word that isn't its
own. This holds in any number of steps and whatever its runtime answers. A real process is an instance of that law where all of this is so.

`lfiload` maps and runs nothing on hardware. [examples/native_host](../examples/native_host/README.md) is a host in C and assembly for
AArch64 Linux that does what stands below, step by step; nothing of it is proved. "What was tried" below says how far it was run; the rest
is from the Arm manual and the systems' documentation. What the words of code may be is in [PROFILE.md](PROFILE.md), the calls of the
verifier in [C.md](C.md).

With `vm.overcommit_memory` at 2 it asks in vain: the data of each slot count as 4 GiB that are promised.

No address there but these is ever reached: lawful code calls at no other (`entries_lie_outside`, `entries_are_called_by_x30`). The table is
data that the code can read, so nothing secret is in it.

Guarded control stacks (FEAT_GCS) are off in a thread that enters a slot: the law lets code return where it likes in its slot, and such a
stack doesn't.

From the moment that a byte is judged nobody writes it: no thread, no other mapping of the same memory, no debugger. Bytes that another
process can still write are copied first, and the copy is judged.

Where `lfi_stream_next` judged them, it was in the piece that the host handed over: nobody writes that piece until it is copied here, and
nobody this copy from then on.

This comes after the last write and before the first execution; without it a core may carry out words that were there before, which nobody
judged.

Little-endian data are owed (SCTLR_EL1.E0E is 0), which a big-endian Linux hasn't.

**To enter** means to set all of these and branch. Any register outside of the table may hold the address of that first branch, as in `br
x16`: the law doesn't ask what it holds. A host that wants to start exactly as `lfiload run` does has no register left for it.

then they are lawful, since they were at the call. A compiler may ask for more registers to be kept; the law doesn't. Some systems use x18:
where the host's own code uses it, as a stack of return addresses or for its thread, the entry sets the host's first;

takes each argument for hostile: an address is `B + (x mod 2^32)`, and a length is tested against the slot's end and against what may be
written. A system call made for the code goes to the slot's data alone; mapping or unmapping pages of a slot is never offered;

may change any byte from R on while it runs, and no other byte of the slot;

The law lets it go on with any lawful registers, also at another word of the code; a branch there is made as at the start.

**Entering again, from within an entry**, is allowed so: in the law it is one run, in which the call is answered with other registers. The
host keeps the call's registers in a frame of its own for each level, and enters with lawful ones, sp among them. The code comes back by
calling an entry that the two have agreed on; the host then answers the first call with the registers that it kept. How deep that goes the
host limits.

**A handler that believes the registers.** Between a load of x30 or a move of sp and the next word, and in profile 2 up to the fourth one
after a move of sp, these two aren't lawful.

a handler that sets pc elsewhere in the slot has to set lawful registers too.

**Anything else that uses sp** of the code, or pushes to it: unwinders, profilers, sanitizers. - **A kernel that changes x18.** Some systems
keep it for themselves, and may write it at any moment. The profile needs one that gives it to the program, as Linux does.

That access is no longer a single one for other threads, of which there is none in the slot.

Of 5,413 files with 5,687 modules none differed.

`checks/real_code/run`, by hand, does the same with zlib, bzip2 and lz4. Not tried is what an emulator in a process of x86-64 doesn't have:
- **An AArch64 processor and its kernel.** Nothing of this has run on one. - **sp that is no multiple of 16**: qemu-user makes no such
fault, so a program that a processor would stop there goes on. - **Caches out of step**, and **stores that are torn** at the edge of a page
that may not be written. - **FEAT_LSE2, branch protection and guarded control stacks**, other page sizes, systems with 39 bits of addresses,
limits on addresses or memory. - **Signals at any moment**, from elsewhere: those that came were faults, and the timer that ends a run.

**Processors.** That one does what the definitions say, with its caches and faults, is believed. - **Speculation and side channels.** The
law speaks of what is carried out. What a processor does on trial, and what time, caches, predictors or power tell, it doesn't know. No
instruction of the profile reads a clock; a runtime can still hand one out, and code of two slots can watch each other's time. - **What the
profiles haven't**: floating point, SIMD, atomics, barriers, timers, system registers. Words that use them are refused. - **Threads in a
module**, memory shared by two.

**Denial of service.** Code may loop for ever, touch all of its 4 GiB, and call its runtime as fast as it can. Time and memory are limited
from outside: a timer whose handler keeps the rules above, a limit of memory. - **The kernel**, and what the host's runtime does for the
code. - **What the repository itself trusts**: [TRUST.md](TRUST.md).

[PERFORMANCE.md](PERFORMANCE.md) has the figures.

A loader that has no byte yet has touched 2.1 MB. A page is in one place at a time, so a loader's pages are at most those of the modules
that were claimed, 16 times 16 MiB. A connection isn't read while 128 of its items wait for a verifier, so little more of a module comes
once it is refused. What was placed before its fault stays until the report.

| one process | `lfiload load` or `serve`, or the library in the host's own process | at most 16 modules, whose slots are 16 places of its
addresses, over 8 connections; the library has no limit of connections, since each is a state of the host's | | many processes on one
machine, for more than 8 connections or 16 modules | as many as there is work, each with its own folder (`--out`) and socket (`--socket`) |
the machine: its processors first, then memory, which is the modules' own bytes and some 2 MB a process | | many machines | the same, on
each | nothing more: processes share no state, no file and no lock |

A process's report and status are all that has to be collected, so any job runner can hand out streams. The same number in two processes is
two modules. A process that dies takes its own modules alone. Another one can take its streams from their beginnings: a report is told by
the streams' bytes alone, but for which of several connections opens a module first, and memory that is refused.

The first connection of a process that opens a number has it. A client that opens all 16 keeps out the others: what they send is unmatched.
`--explain` shows it: `module M: from connection C`, and `connection C: strays N`. Connections are numbered as they come, so a host that
knows the order of its clients uses a module only if it is from the right one. A client can also send its own code under a number that was
meant by another one. It can't get unlawful code told as complete, change what others sent, or reach another process. So **a process, with
its socket and folder, is for one tenant**.
""",
    "C": """
A host that runs foreign code in its own process can call the verifier instead of starting a program.

Of the ten rules, and of what a word asks of the next one, speaks docs/PROFILE.md.

The bytes are judged in the caller's piece. From the call on until the host has copied them nobody may write them; where that can't be kept,
as in memory that is shared with another process, the host copies the piece first.

Which of several connections has a module is the host's to say: it has one state a connection.

Both are tied to the definitions of which confinement is proved (docs/PROFILE.md, "Modules, pages, slots" and "Registers"): lawful code that
starts from lawful registers on this map never touches a byte outside of its slot.

The law is one of definitions, and of the machine that carries them out. What a processor does is not proved. [HOST.md](HOST.md) says in
order what a host does, and what the system has to be kept from; [examples/native_host](../examples/native_host/README.md) does it.

Nothing looks at C. What a call promises, it promises to a caller that keeps all of this: | No pointer is null, also where the size is 0. |
A null pointer is no address at which bytes can lie, not even none. | | `size` is below 2^63, and as many bytes can be read at `code`,
`piece` or `bytes`;

No call can see how much memory lies at a pointer. |

| Nobody writes these bytes during the call. | What two looks at a byte find must be the same. Bytes that another thread or process may
still write, as in shared memory, are to be copied first, and the copy judged. | | Nobody writes the bytes between a call of
`lfi_stream_next` that told them as code and the host's own copy of them. | They are judged where they lie; what is copied must be what was
judged. A host that can't keep this judges its copy, by `lfi_verify_update`. |

| A pointer to a struct is aligned for it.

| What a call writes overlaps nothing else that the call is handed. | | | No other thread uses, during the call, a struct that it writes, or
writes one that it reads. |

The same sources and toolchain make the same bytes, and a line of `checks/build --library` tells the hash.

`cargo doc` has all of it, with examples.

| of the program, now 0.1.0 | `lfiload --version`, CHANGELOG.md, a release's name | with each release: the first part, from 1.0.0 on, where
a command, a printed line or a status changes its meaning (before 1.0.0 the second part); the second where something is added; else the
third | scripts that read the lines. CHANGELOG.md names each such change |

by one with each change of a function, a struct or a number of the header, or of what one of them means | a host is compiled anew.

| of a profile, 1 and 2 | the kind of an Open, a field of an image, `--profile`, the calls' `profile` | never: a profile's instructions,
rules, registers and map stay what they are. Other ones are another profile, with the next number | nothing for code of a known profile. A
library or program that doesn't know a profile says so: `LFI_UNKNOWN_PROFILE`, fault 1 of a stream, fault 2 of an image | | of messages,
kinds 1 to 5 | a stream's headers | a kind's meaning stays; another message is another kind | an older receiver tells fault 1, unknown kind,
and loads nothing from there on | | of image files, `LFI1` | their first four bytes | another layout has other first bytes | an older reader
tells fault 1, it is no image file | So code, streams and images that were made once stay readable: each later version of the program and of
the library takes the profiles, kinds of messages and image files that a released one took. One may be dropped only where the first part of
the program's version grows, and CHANGELOG.md announces it one release before. The exception is a fault of the profile itself. Where code
that a profile calls lawful could leave its slot, the rule is mended in that profile, at once and in a release of its own; such code is
refused from then on.

Of `LFI_VERSION` each release has one, the newest. Libraries of several numbers can be installed beside each other in several prefixes, and
a host finds its own by the SONAME. The format of bytes that only one process reads, such as `lfi_state` and `lfi_stream`, is no promise
beyond its `LFI_VERSION`: don't write them to files.

**Proved**, of the library's code: what the header says under "Ensures"; that each call ends, reads and writes no memory but what it was
handed, and can't stop the process. `checks/contracts lfi_verifier` prints the clauses. - **Tested**, by `checks/c_callers/run` and
`checks/delivered`: [PROVED.md](PROVED.md), "What is only tested". Nothing of bindings/ is proved. - **Believed**: the compilers. The
archives are made by LLVM; that for x86-64 by the toolchain's own compiler, too, and both are tested. The proofs stop at the source. The
linker, and that the host is compiled against this header, are the host's.
""",
    "HEADER": """
lfi_verifier.h: the verifier of A64 code for Lightweight Fault Isolation, as a static library for hosts. What stands below "Ensures" is
proved of the library's code. What stands below "The caller owes" is the caller's to keep: no tool looks at C. docs/C.md has both, with
examples.

The caller owes, at each call: - no pointer is null, also where the size is 0;

each pointer to a struct is aligned for it;

`size` bytes can be read at `code`, `piece` or `bytes`, and `room` bytes written at `text`, or words at `mend`, each below 2^63 bytes, and
nobody else writes them during the call: bytes that another thread or process may still write are to be copied first;

what is written overlaps nothing else that the call is handed, and no other thread uses it during the call; - nobody writes bytes that
lfi_stream_next told as code, until the host has its own copy of them: they were judged there.

The bytes are judged here, in this piece: from this call on until the host has made its own copy of them nobody may write them, or what is
judged isn't what is copied.
""",
}
# What of documents is cited nowhere: pieces of code, headings, tables' heads, and HOST's rows of the map and of the registers' numbers.
UNCITED = re.compile(r"^```.*?^```$|^#+ .*?$|^\|[^\n]*\n\|(?:---\|)+$|^\| (?:B [^\n]*|x\d[^\n]*|sp \|[^\n]*)$", re.M | re.S)
WHOLE = {"C": "", "COMMANDS": r"\*\*[^*]*\*\*", "HEADER": "Ensures:", "HELP": "Exit status:|On the standard error:", "HOST": ""}


def text_of(file):
    """What a document says, without what is cited nowhere; of the helps' file the texts alone, of the header the comments, behind the names of
    what they stand beside."""
    text = file.read_text(encoding="utf-8")
    if file.suffix == ".md":
        return UNCITED.sub("", text)
    if file.suffix == ".h":
        comments = re.findall(r"(?:(\w+)(?:\[\d+\]; | \d+u|;) *)?/\* (.*?) ?\*/", text, re.S)
        return re.sub(r"\n \*(?=\n)", "", "\n".join(f"{name}: {told}" if name else told for name, told in comments))
    if file.suffix == ".rt":
        text = re.sub(r"\nExample: .*(?=\";)", "", text)
        return "\n".join(it.replace('\\"', '"') for it in re.findall(r'&str =\s+"((?:[^"\\]|\\.)*)";', text))
    return text


def flat(text):
    """A text in one line, without the signs of its comment."""
    return " ".join(re.sub(r"\n *(?:(?:#|//)  | \*) ", " ", text).split())


def citations():
    """What is cited of each document, with the file that cites it."""
    for file in sorted(CHECKS.rglob("*")):
        if file.is_file() and file.suffix in ("", ".py", ".runs", ".c", ".cc") and not file.name.startswith("."):
            for document, words in CITED.findall(file.read_text(encoding="utf-8", errors="replace")):
                yield document, flat(words), file.name
    for document, told in sentences.DOCUMENTED.items():
        yield from ((document.removesuffix(".md"), words, "sentences.py") for words in told)
    for document, told in TOLD.items():
        yield from ((document, flat(words), "cited.py") for words in told.strip().split("\n\n"))


def compare():
    """How many citations there are, each of which stands in its document."""
    texts, count = {name: flat(text_of(file)) for name, file in DOCUMENTS.items()}, 0
    marked = {name: bytearray(len(text)) for name, text in texts.items()}
    for document, words, file in citations():
        places = [it.span() for it in re.finditer(re.escape(words), texts[document])]
        if not places:
            sys.exit(f"program: {file} cites what {DOCUMENTS[document].name} doesn't say: {words}")
        for first, end in places:
            marked[document][first:end] = b"\1" * (end - first)
        count += 1
    for name, uncited in WHOLE.items():
        rest = "".join("\0" if mark else letter for letter, mark in zip(texts[name], marked[name]))
        rest = re.sub(r"\0+", "..", re.sub(uncited, "", rest) if uncited else rest)
        if re.search(r"[a-z]{2}", rest):
            sys.exit(f"program: no check cites this of {DOCUMENTS[name].name}: {flat(rest)}")
    return count
