"""The names that docs/PROVED.md cites, beside the sources: each has to be there, and a clause has to be one of the function that it is said to be of."""

import collections
import re

from lib import tree

PAGE = tree.TOP / "docs" / "PROVED.md"
FUNCTION = re.compile(r'^(\s*)(?:pub(?:\(crate\))? )?(?:const |unsafe |extern "C" )*fn (\w+)')
OWNER = re.compile(r"^(?:impl|(?:pub )?trait)(?:<.*?>)? (?:.* for )?(\w+)")
CLAUSE = re.compile(r"^\s*(requires|ensures)\s+(?:(\w+)\s+)?\{")
WORD = re.compile(r"[A-Za-z_]\w*(?:::\w+)*")
# Clauses, each with what stands behind it in brackets, and the functions or definitions that they are of.
NAME = r"`[^`]+`(?: \([^)]*\))?"
CLAUSES_OF = re.compile(rf"((?:{NAME}(?:, | and ))*{NAME}) of ((?:`[^`]+`(?:, | and ))*`[^`]+`)")
# Words between backquotes that name nothing of the crates' sources.
ELSEWHERE = {"CRATE", "LFI_BAD_STATE", "LFI_NO_ROOM", *(path.name for path in tree.CRATES.glob("tests_*"))}


def clauses():
    """The clauses of each function, by its name and by its name with that of its owner; one without a name is its kind."""
    found = collections.defaultdict(set)
    for path in tree.CRATES.glob("*/src/**/*.rt"):
        owner, names = "", []
        for line in path.read_text(encoding="utf-8").split("\n"):
            if line and not line[0].isspace():
                match = OWNER.match(line)
                owner = match[1] if match else owner if line.startswith("}") else ""
            match = FUNCTION.match(line)
            if match:
                names = [match[2], f"{owner}::{match[2]}"] if match[1] else [match[2]]
                for name in names:
                    found[name].update()
            match = CLAUSE.match(line)
            if match:
                for name in names:
                    found[name].update((match[1], match[2] or match[1]))
    return found


def words(parts):
    """All words of files of the crates' folders of these names."""
    files = (path for part in parts for ending in ("rt", "antt") for path in tree.CRATES.glob(f"*/{part}/**/*.{ending}"))
    return {word for path in files for word in re.findall(r"[^\W\d]\w*", path.read_text(encoding="utf-8"))}


def strayed():
    """What the page cites that isn't there, a line each."""
    functions, defined, known = clauses(), words(("specs", "proofs")), words(("src", "specs", "proofs")) | ELSEWHERE
    page = re.sub(r"^```.*?^```", "", PAGE.read_text(encoding="utf-8"), flags=re.M | re.S)
    for line in page.split("\n"):
        for named, homes in CLAUSES_OF.findall(line):
            homes = re.findall(r"`([^`]+)`", homes)
            for name in re.findall(r"`([^`]+)`", re.sub(r"\([^)]*\)", "", named)):
                if not any(name in functions.get(home, ()) for home in homes):
                    yield f"`{name}` is no clause of {', '.join(homes)}"
            for home in homes:
                if home not in functions and home not in defined:
                    yield f"`{home}` isn't there"
        for span in re.findall(r"`([^`]+)`", line):
            for word in WORD.findall(span):
                if word not in functions if "::" in word else word not in known:
                    yield f"`{word}` isn't there"
