"""What `--help` says of ranges and of defaults, beside the parser and beside what crates/lfi_command_line/specs/CommandLine.antt defines.

Each `A to B` and `A or B` has to be the range that is defined, if one is, and that the parser takes: A and B are taken, and one less than A and
one more than B are usage errors. Each `X by default` has to be the default that is defined, and each option of which one is defined has to be told.
"""

import re
import subprocess
import tempfile

from lib import tree

DEFINITIONS = tree.CRATES / "lfi_command_line" / "specs" / "CommandLine.antt"
# What a command needs beside the option that is tried. No file is where it looks: where there is no usage error, its status is 3.
NEEDS = {"--socket": "nowhere/socket", "--connections": "1", "--steps": "1"}
USAGE_ERROR, NO_FILE = 2, 3


def definition(name):
    """What is defined to be so, behind these words."""
    return re.search(rf"^{re.escape(name)} = (.*\n(?: +.*\n)*)", DEFINITIONS.read_text(encoding="utf-8"), re.M)[1].strip()


def ranges(asked):
    """The least and the most of each number that a command takes, by the name of its option or argument, as they are defined."""
    ranged = r'(?:Or \d+|IfAny) (\d+) (\d+) \(first_of \(codes "(\w+)"\)'
    found = {name: (int(least), int(most)) for least, most, name in re.findall(f"IsNumber{ranged}", asked)}
    needed = re.findall(r'first_of \(codes "(\w+)"\) given ≡ Some text\) × IsNumber (\d+) (\d+)', asked)
    return found | {name: (int(least), int(most)) for name, least, most in needed}


def defaults(asked):
    """What is so of a command where an option isn't given, by the option's name, as it is defined."""
    found = {name: default for default, name in re.findall(r'IsNumberOr (\d+) \d+ \d+ \(first_of \(codes "(\w+)"\)', asked)}
    found |= {name: "no limit" for name in re.findall(r'IsNumberIfAny \d+ \d+ \(first_of \(codes "(\w+)"\)', asked)}
    if "IsFormat given" in asked or "IsReportAsked given" in asked:
        found["format"] = definition("format_named None").removeprefix("Some formats.").lower()
    if "pages_named" in asked:
        found["pages"] = definition("pages_named None profile").removeprefix("Some ").removesuffix("_page")
    return found


def told(text):
    """What a help says of each argument and option, by its name: its range and its default, or None."""
    found = {}
    for name, rest in re.findall(r"^  +(?:-h, )?(--\w+|<\w+>)(?:\.\.\.)?(?: <\w+>)?  +(.*)$", text.partition("\n\nUsage: ")[2], re.M):
        span, default = re.search(r"\b(\d+) (?:to|or) (\d+)\b(?! bytes)", rest), re.search(r"; (.*) by default$", rest)
        found[name] = span and (int(span[1]), int(span[2])), default and default[1]
    return found


def status_of(program, command, names, name, value):
    """The status of a command with this value of an option, or so many of an argument, and with all else that it needs."""
    words = [f"{name}={value}"] if name.startswith("--") else ["nowhere"] * value
    for other in names:
        if other != name:
            words += ["nowhere"] if other.startswith("<") else [other, NEEDS[other]] if other in NEEDS else []
    with tempfile.TemporaryDirectory() as folder:
        return subprocess.run([program, command, *words], cwd=folder, stdin=subprocess.DEVNULL, capture_output=True, timeout=60).returncode


def flaws(program, command, text):
    """What a command's help says that isn't so."""
    asked = definition(f"IsAskedBy name given ({command.capitalize()} asked)").replace("IsProfile given", definition("IsProfile given profile"))
    helped, defined, without = told(text), ranges(asked), defaults(asked)
    for name, (span, default) in helped.items():
        if span and span != defined.get(name[2:], span):
            yield f"{name} is told as {span}, and defined as {defined[name[2:]]}"
        if default != without.get(name[2:]):
            yield f"{name} is told as {default} by default, and defined as {without.get(name[2:])}"
        for value in (span[0] - 1, *span, span[1] + 1) if span else ():
            came, wanted = status_of(program, command, helped, name, value), NO_FILE if span[0] <= value <= span[1] else USAGE_ERROR
            if came != wanted:
                yield f"{name} {value} has status {came}, and not {wanted}"
    for name in sorted({f"--{name}" for name in {*defined, *without}} - set(helped)):
        yield f"{name} isn't told"


def counts(helps):
    """How many ranges and how many defaults these helps tell."""
    all_told = [it for text in helps.values() for it in told(text).values()]
    return sum(span is not None for span, _ in all_told), sum(default is not None for _, default in all_told)
