"""Where things stand in this repository, what crates.txt says, and the built program: for the scripts of checks/."""

import base64
import hashlib
import importlib.machinery
import importlib.util
import pathlib
import re
import subprocess

CHECKS = pathlib.Path(__file__).resolve().parent.parent
TOP = CHECKS.parent
CRATES, EXAMPLES = TOP / "crates", TOP / "examples"
CRATE = CRATES / "lfiload"
PROGRAM = CRATE / "out" / "lfiload"


def rooms():
    """The rooms of crates.txt, in their order: of each the crates with the libraries that their lines name."""
    found, room = {}, ""
    for line in (TOP / "crates.txt").read_text(encoding="utf-8").splitlines()[1:]:
        if line.startswith("#"):
            room = line.removeprefix("#").strip().rstrip(".")
        elif line.strip():
            head, _, rest = line.partition(":")
            found.setdefault(room, {})[head.split()[0]] = rest.split()
    return found


def crates():
    """All crates, in the order of crates.txt, with the libraries that their lines name."""
    return {name: libraries for room in rooms().values() for name, libraries in room.items()}


def definition_files(crate):
    """The files of a crate's specs/ that a public clause may cite, in the order in which its Lib.antt names them."""
    folder = CRATES / crate / "specs"
    if not folder.is_dir():
        return []
    lines = (folder / "Lib.antt").read_text(encoding="utf-8").splitlines()
    names = [line.split()[2] for line in lines if line.startswith("pub mod ")]
    return [folder / f"{name}.antt" for name in names if name != "inner" and (folder / f"{name}.antt").is_file()]


def digest(texts):
    """Twelve signs, of 72 bits, that are others where one of these texts is, and not where only their order is."""
    return base64.urlsafe_b64encode(hashlib.sha256("\0".join(sorted(texts)).encode()).digest()[:9]).decode()


def script(name, checks=CHECKS):
    """A script of checks/, or of a copy of it, as a module."""
    loader = importlib.machinery.SourceFileLoader(name.replace("/", "_"), str(checks / name))
    module = importlib.util.module_from_spec(importlib.util.spec_from_loader(loader.name, loader))
    loader.exec_module(module)
    return module


def add_program(parser):
    """Lets the command line say which program runs, for `program_of`."""
    parser.add_argument("--built", action="store_true", help="prove and build the program only where none is there, as `rt ci` leaves one")
    parser.add_argument("--program", type=pathlib.Path, help="run this program")


def program_of(given):
    """The program that runs: the one that was named, or the built one, which `rt run` proves and builds first."""
    if given.program is not None:
        return given.program.resolve()
    if not given.built or not PROGRAM.exists():
        build()
    return PROGRAM


def help_of(program, *words):
    """What the program says of itself, or of a command."""
    return subprocess.run([program, *words, "--help"], capture_output=True, text=True, check=True).stdout


def build():
    """Proves and builds the program, where that isn't done yet."""
    subprocess.run(["rt", "run", "--", "load", EXAMPLES / "one_ret.stream"], cwd=CRATE, check=True, stdout=subprocess.DEVNULL)
