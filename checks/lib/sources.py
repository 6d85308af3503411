"""How the sources of crates are written: what in a file is code, which clauses stand in it, what the names in these mean, and which
forms stand nowhere, since what they say would be read otherwise here than by the prover."""

import re

# Texts and characters, in which braces and words are none.
TEXT = r'b?"(?:\\.|[^"\\])*"|b?\'(?:\\.[^\']*|[^\'\\])\''
# What isn't code: comments, what is imported for clauses, and clauses and members for proofs alone, up to the brace with which they begin.
PART = re.compile(rf"(?P<text>{TEXT})|(?P<comment>//[^\n]*)|(?P<names>\bghost\s+use\s[^;]*;)"
                  r"|(?P<clause>\b(?P<kind>requires|ensures)\s+(?P<name>\w+\s+)?\{|\bghost\s[^{};\"']*\{)", re.S)
GIVEN = re.compile(r"\s*=\s*\{")
CLAUSE_BRACE = re.compile(r'"(?:\\.|[^"\\])*"|[{}]', re.S)
# What a file uses from elsewhere, as it stands in code and in definitions: from where, which names, or under which other name.
USE = re.compile(r"(?:ghost\s+)?use\s+([\w.]+?)(?:\.\{([^}]*)\}|\s+as\s+(\w+)|)\s*;?", re.S)
# What a clause or a definition names stands in specs/, where it is read.
PROOFS = re.compile(r"\.proofs\b")
# The attributes and macros that stand in crates. What another one does to the code that it stands at, no check would see.
ATTRIBUTE = re.compile(r"#!?\[(?:inline\((?:always|never)\)|cold|derive\([\w, ]+\)|tactic\([\w:, ()]+\)|repr\(C\)|unsafe\(no_mangle\)|error\(\"\"\))\]")
MACROS = ("format", "format_args", "matches", "prove", "unreachable", "vec", "write", "writeln")
# Forms that stand in no crate, since they are read otherwise by the prover than here: in code, and in clauses.
ODD = (
    ("a comment in stars", re.compile(r"/\*|\*/")),
    ("a raw text", re.compile(r"[\w#]\"")),
    ("an attribute that is none of the known", re.compile(rf"(?!{ATTRIBUTE.pattern})#!?\s*\[")),
    ("a macro that is none of the known", re.compile(rf"\b(?!(?:{'|'.join(MACROS)})!)\w+!(?!=)|\b(?!(?:if|while|match|return|in)\b)\w+\s+!\s*[(\[{{]|\bmacro_rules\b")),
)
ODD_IN_CLAUSE = (
    ("a comment in a clause", re.compile(r"--|//|/\*|\{-|-\}")),
    ("a brace or a quotation mark beside a prime", re.compile(r"'[{}\"]|[{}\"]'")),
    ("a text of two lines in a clause", re.compile(r'^(?:[^"\n]|"(?:\\.|[^"\\\n])*")*"[^"\n]*$', re.M)),
)
# And in files of definitions: a name that is passed on, a file that isn't named for all, and a comment that isn't a line of its own.
ODD_IN_SPECS = (
    ("a name that is passed on, or a file that only this crate names", re.compile(r"^(?:pub use|mod|open|import)\b", re.M)),
    ("a comment behind a definition", re.compile(r'^(?! *--)(?:[^"\n]|"(?:\\.|[^"\\\n])*")*?(?<!\S)--', re.M)),
    ("a comment in braces", re.compile(r"\{-|-\}")),
)


def clause_end(text, at):
    """Where a clause ends that begins with the brace there, and what a member is given in braces behind its type."""
    depth = 0
    for brace in CLAUSE_BRACE.finditer(text, at):
        depth += {"{": 1, "}": -1}.get(brace[0], 0)
        if brace[0] == "}" and not depth:
            given = GIVEN.match(text, brace.end())
            return clause_end(text, given.end() - 1) if given else brace.end()
    return len(text)


def parts(text):
    """The parts of a file in their order, each with its kind, "code", "text", "comment", "names" or "clause", its match and its text."""
    at = 0
    while match := PART.search(text, at):
        if at < match.start():
            yield "code", None, text[at : match.start()]
        at = clause_end(text, match.end() - 1) if match["clause"] else match.end()
        yield match.lastgroup if match.lastgroup in ("text", "comment", "names") else "clause", match, text[match.start() : at]
    if at < len(text):
        yield "code", None, text[at:]


def code_of(text):
    """The code of a file: without comments and clauses, and without what is said for these alone."""
    return "".join({"code": part, "text": part, "comment": " "}.get(kind, "") for kind, _, part in parts(text))


def clauses_from(text, at):
    """The clauses of the function whose head begins there, up to its body, or to the end of a trait's method: kind, name and text of each."""
    found, depth = [], 0
    for kind, match, part in parts(text[at:]):
        if kind == "clause" and match["kind"]:
            found.append((match["kind"], (match["name"] or "").strip() or None, part.partition("{")[2]))
        for sign in part if kind == "code" else "":
            depth += {"(": 1, "[": 1, ")": -1, "]": -1}.get(sign, 0)
            if sign in "{;" and not depth:
                return found
    return found


def odd(text):
    """What stands in a file that is read otherwise by the prover than here, or that no check looks into."""
    code = "".join('""' if kind == "text" and '"' in part else part for kind, _, part in parts(text) if kind in ("code", "text"))
    yield from (name for name, form in ODD if form.search(code))
    for kind, _, part in parts(text):
        if kind == "clause":
            yield from (name for name, form in ODD_IN_CLAUSE if form.search(part))
        if kind == "names" and (not USE.fullmatch(part) or PROOFS.search(part)):
            yield "names from proofs, or in a form that isn't known"


def odd_in_specs(text):
    """The same of a file of definitions."""
    yield from (name for name, form in ODD_IN_SPECS if form.search(text))
    if not all(USE.fullmatch(line) and not PROOFS.search(line) for line in uses_of_specs(text)):
        yield "names from proofs, or in a form that isn't known"


def uses(text):
    """What the clauses of a file use from elsewhere."""
    return [part for kind, _, part in parts(text) if kind == "names"]


def uses_of_specs(text):
    """What a file of definitions uses from elsewhere."""
    return [line for line in text.split("\n") if re.match(r"use\b", line)]


def meanings(uses, said):
    """What the names mean that a text says, by what its file uses from elsewhere: a line for each. A use in another form counts whole."""
    found = []
    for use in uses:
        known = USE.fullmatch(use)
        path, many, alias = known.groups() if known else (use, None, None)
        for name in [f"{path} as {alias}"] if alias else (many or path).split(","):
            signs = name.split(" as ")[-1].strip().split("◌")
            if not known or all(sign in said for sign in signs if sign):
                found.append(f"{path}.{' '.join(name.split())}")
    return sorted(found)
