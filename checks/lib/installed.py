"""What `./install` puts into a prefix, what it leaves there, and what it takes away again: for checks/delivered."""

import hashlib
import os
import pathlib
import platform
import re
import resource
import shlex
import shutil
import stat
import subprocess
import sys
import tempfile

from lib.tree import TOP, script

HEADER = TOP / "include" / "lfi_verifier.h"
CALLERS = script("c_callers/run")
# The files of the tree that are installed, by the names that ./install and docs/C.md, "Installed", say.
FILES = {
    "bin/lfiload": "crates/lfiload/out/lfiload",
    "share/man/man1/lfiload.1": "docs/lfiload.1",
    "share/bash-completion/completions/lfiload": "completions/lfiload.bash",
    "share/zsh/site-functions/_lfiload": "completions/_lfiload",
    "share/fish/vendor_completions.d/lfiload.fish": "completions/lfiload.fish",
    "include/lfi_verifier.h": "include/lfi_verifier.h",
    **{f"share/doc/lfiload/{it}.md": f"docs/{it}.md" for it in ("C", "HOST", "COMMANDS", "GLOSSARY", "PROFILE")},
}
PAGE, LINK = "share/man/man1/lfiload.1", "lib/liblfi_verifier.so"

untried = []


def fail(why):
    sys.exit(f"delivered: {why}")


def run(*words, status=0, stderr=subprocess.PIPE, **more):
    """Runs a command to its end; stops where its status is another one. Returns its output."""
    told = subprocess.run([str(word) for word in words], stdout=subprocess.PIPE, stderr=stderr, text=True, **more)
    if told.returncode != status:
        fail(f"{' '.join(map(str, words))}: status {told.returncode}\n{told.stdout}{told.stderr or ''}")
    return told.stdout


def commit_all(top):
    """Makes a repository of a folder, with one commit of all its files. Returns the words by which git is called there."""
    git = ["git", "-c", "user.name=a", "-c", "user.email=a", "-C", top]
    for words in ("init", "--quiet"), ("add", "."), ("commit", "--quiet", "-m", "a"):
        run(*git, *words)
    return git


def has(*tools):
    """Whether the machine has these tools; which of them it hasn't is told at the end."""
    missing = [it for it in tools if not shutil.which(it)]
    untried.extend(f"{it} isn't here" for it in missing)
    return not missing


def oldest_python():
    """CPython 3.9, where it is here, also as one of pyenv's that isn't chosen; else nothing."""
    for place in "python3.9", *pathlib.Path.home().glob(".pyenv/versions/3.9.*/bin/python3.9"):
        if shutil.which(place) and subprocess.run([place, "-V"], capture_output=True).returncode == 0:
            return place
    untried.append("python3.9 isn't here")
    return None


def of_document(pattern):
    """What docs/C.md says where this stands."""
    return re.search(pattern, (TOP / "docs" / "C.md").read_text(), re.M) or fail(f"docs/C.md doesn't have {pattern}")


def put_stub(folder, number, version, compiler="cc"):
    """Both libraries of an interface of this number, all of whose other functions end the process."""
    functions = CALLERS.of_header(HEADER.read_text())
    bodies = {name: f"return {number};" if name == "lfi_version" else "__builtin_trap();" for name in functions}
    folder.mkdir()
    (folder / "stub.c").write_text("".join(f"unsigned {name}(void) {{ {body} }}\n" for name, body in bodies.items()))
    run(compiler, "-fPIC", "-c", folder / "stub.c", "-o", folder / "stub.o")
    run(run(compiler, "-print-prog-name=ar").strip(), "rcs", folder / "liblfi_verifier.a", folder / "stub.o")
    run(compiler, "-shared", "-fPIC", folder / "stub.c", "-o", folder / f"liblfi_verifier.so.{version}")


# ---- what is installed

def mode_of(name):
    """The mode of a file that is installed, or in a release, under this name: what can be run may be run by all."""
    return 0o755 if pathlib.PurePath(name).parent.name == "bin" or ".so." in name else 0o644


def compare_modes(prefix):
    """What is installed is for all to read, and no one else's to write, whatever the mask is."""
    for place in prefix.rglob("*"):
        wanted = 0o755 if place.is_dir() else mode_of(str(place.relative_to(prefix)))
        if not place.is_symlink() and stat.S_IMODE(place.stat().st_mode) != wanted:
            fail(f"{place.relative_to(prefix)} is installed with the mode {stat.S_IMODE(place.stat().st_mode):o}")


def compare_contents(prefix, archive):
    """What is installed of the tree's files, and the archive, has their bytes."""
    files = {**{name: TOP / it for name, it in FILES.items()}, "lib/liblfi_verifier.a": archive}
    differ = [name for name, it in files.items() if (prefix / name).read_bytes() != it.read_bytes()]
    if differ:
        fail(f"installed with other bytes than the tree's: {differ}")


# Commands that CMake 3.10 has, by its manual cmake-commands(7).
CMAKE_COMMANDS = {"add_library", "else", "elseif", "endif", "get_filename_component", "if", "set", "set_target_properties", "unset"}


def compare_cmake(prefix):
    """What is installed for CMake has commands that its version 3.10 has."""
    for file in sorted((prefix / "lib" / "cmake" / "lfi_verifier").iterdir()):
        asked = set(re.findall(r"^ *(\w+) *\(", file.read_text(), re.M))
        if not asked or asked - CMAKE_COMMANDS:
            fail(f"{file.name} asks CMake for {sorted(asked - CMAKE_COMMANDS)}")


def files_in(prefix):
    """All files and links there."""
    return [it for it in prefix.rglob("*") if it.is_symlink() or not it.is_dir()]


# ---- files of others, and changed ones

def try_files_of_others(prefix, words):
    """A file of somebody else isn't replaced, and then nothing is written; nor is one to which a link leads, or which has the name of
    an installed file and another."""
    page, mine, kept = prefix / PAGE, prefix.parent / "mine", prefix.parent / "kept"
    page.parent.mkdir(parents=True)
    page.write_text("another page\n")
    for _ in range(2):
        run(*words, status=1)
        if files_in(prefix) != [page] or page.read_text() != "another page\n":
            fail(f"an install that replaces nothing of somebody else leaves {files_in(prefix)}")
    page.unlink()
    # Nor is one where the program alone is installed.
    header = prefix / "include" / "lfi_verifier.h"
    run(TOP / "install", "--prefix", prefix)
    header.parent.mkdir(parents=True, exist_ok=True)
    header.write_text("another header\n")
    before = {it: it.read_bytes() for it in files_in(prefix)}
    run(*words, status=1)
    if {it: it.read_bytes() for it in files_in(prefix)} != before:
        fail("an install of the library beside the program replaces a header of somebody else, or writes something")
    header.unlink()
    run(*words)
    mine.write_text("mine\n")
    page.unlink()
    # What an install that was killed leaves has such a name.
    links = [page, prefix / "bin" / ".lfiload.new", prefix / "lib" / ".liblfi_verifier.so.new"]
    for it in links:
        it.symlink_to(mine)
    run(*words)
    if any(it.is_symlink() for it in links) or mine.read_text() != "mine\n":
        fail("an install over a link, or with one beside, writes to what the link names, or leaves it")
    page.write_text("kept\n")
    os.link(page, kept)
    told = run(*words)
    if any(not line.endswith(": installed") for line in told.splitlines()[:-2]):
        fail(f"an install over a changed page, of which nothing is left, tells {told}")
    if kept.read_text() != "kept\n":
        fail("an install writes to a file that has another name, too")


# C: `./install --check --prefix P` says of each file whether it is of this tree, and `--uninstall` removes what was installed.
def try_changes(prefix, words):
    """All goes, also the prefix; a file that was changed, and a link that leads elsewhere, is told and left."""
    run(TOP / "install", "--uninstall", "--prefix", prefix)
    if prefix.exists():
        fail(f"left after --uninstall: {sorted(map(str, prefix.rglob('*')))}")
    others, page, link = prefix / "bin", prefix / PAGE, prefix / LINK
    others.mkdir(parents=True)
    try_files_of_others(prefix, words)
    page.write_text("a changed page\n")
    link.unlink()
    link.symlink_to("another.so")
    told = run(TOP / "install", "--check", *words[1:3], status=1)
    if any(f"{it}: changed since it was installed\n" not in told for it in (PAGE, LINK)):
        fail(f"--check of a changed page and link tells {told}")
    told = run(TOP / "install", "--uninstall", "--prefix", prefix, status=1)
    if sorted(told.splitlines()) != [f"{it}: changed since it was installed, and left" for it in (LINK, PAGE)]:
        fail(f"--uninstall of a changed page and link tells {told}")
    if set(files_in(prefix)) != {page, link} or os.readlink(link) != "another.so" or not others.is_dir():
        fail(f"left after --uninstall beside a changed page and link: {files_in(prefix)}, and a folder that was there before: {others.is_dir()}")
    link.unlink()


def try_installs(prefix, words):
    """A dangling link of somebody else isn't replaced; --check tells a file that is missing; an install without the library takes away
    what one with it put there, but for what was changed; after several installs only what was there before is left."""
    program, header = prefix / "bin" / "lfiload", prefix / "include" / "lfi_verifier.h"
    program.parent.mkdir(parents=True)
    program.symlink_to("nowhere")
    run(*words[:1], "--prefix", prefix, *words[3:], status=1)
    if not program.is_symlink():
        fail("an install replaces a dangling link of somebody else")
    program.unlink()
    run(*words[:1], "--prefix", prefix, *words[3:])
    program.unlink()
    if "bin/lfiload: missing\n" not in run(TOP / "install", "--check", "--prefix", prefix, *words[4:], status=1):
        fail("--check doesn't tell that a file is missing")
    header.write_text("changed\n")
    told = run(TOP / "install", "--prefix", prefix)
    left = [it for it in files_in(prefix) if "verifier" in it.name]
    if left != [header] or header.read_text() != "changed\n" or not program.exists():
        fail(f"an install without the library leaves {left}, where {header} was changed")
    if "include/lfi_verifier.h: changed since it was installed, and left\n" not in told:
        fail(f"an install that leaves a changed header tells {told}")
    header.unlink()
    mine = prefix / "share" / "mine"
    mine.write_text("mine\n")
    run(TOP / "install", "--uninstall", "--prefix", prefix)
    if set(prefix.rglob("*")) != {program.parent, mine.parent, mine}:
        fail(f"left after several installs: {sorted(map(str, prefix.rglob('*')))}, where {program.parent} was before, and {mine} came")


def up_to_64_kib():
    """Lets no file of the process that is to be started grow above so much."""
    resource.setrlimit(resource.RLIMIT_FSIZE, (65536, 65536))


def try_full_disk(prefix):
    """A first install that can write no more than 64 KiB of a file names the file, and is on record: --uninstall leaves nothing."""
    words, program = [TOP / "install", "--prefix", prefix], prefix / "bin" / "lfiload"
    told = subprocess.run(words, capture_output=True, text=True, preexec_fn=up_to_64_kib)
    if told.returncode != 1 or told.stderr != f"install: {program}: File too large\n":
        fail(f"a first install that can't write the program: status {told.returncode}, {told.stderr}")
    run(*words, "--uninstall")
    if prefix.exists():
        fail(f"left of a first install that failed, after --uninstall: {sorted(map(str, prefix.rglob('*')))}")


def try_one_after_another(prefix, words):
    """The program first and the library later, or the other way round: --uninstall leaves nothing, also of the prefix."""
    for first, second in (words[3:], []), ([], words[3:]):
        for more in first, second, ["--uninstall"]:
            run(*words[:1], "--prefix", prefix, *more)
        if prefix.exists():
            fail(f"left of two installs, {first} and then {second}: {sorted(map(str, prefix.rglob('*')))}")


def try_another_disk(prefix, words):
    """An install, and an uninstall, where the folder for scratch files is on another file system than the prefix."""
    place = pathlib.Path("/dev/shm")
    if not place.is_dir() or place.stat().st_dev == prefix.parent.stat().st_dev:
        return
    with tempfile.TemporaryDirectory(dir=place) as scratch:
        for more in words[3:], ["--uninstall"]:
            run(*words[:1], "--prefix", prefix, *more, env={**os.environ, "TMPDIR": scratch})
        if prefix.exists() or os.listdir(scratch):
            fail(f"an install with TMPDIR on another file system leaves {sorted(map(str, prefix.rglob('*')))}, {os.listdir(scratch)}")


def try_failures(prefix):
    """An install that can't put a file in its place leaves none beside it. Where nobody reads what it tells, and of a record that is
    none, a line says so."""
    page, record, words = prefix / PAGE, prefix / "share" / "lfiload" / "installed", [TOP / "install", "--prefix", prefix]
    run(*words)
    page.unlink()
    page.mkdir()
    run(*words, status=1)
    if list(prefix.rglob(".*")):
        fail(f"an install that fails leaves {list(prefix.rglob('.*'))}")
    told = run(*words, "--uninstall", status=1)
    if told != f"{PAGE}: changed since it was installed, and left\n":
        fail(f"--uninstall where a folder stands in place of the page tells {told}")
    page.rmdir()
    run(*words)
    unread, out = os.pipe()
    os.close(unread)
    for unbuffered in "", "1":
        told = subprocess.run(words, stdout=out, stderr=subprocess.PIPE, text=True, env={**os.environ, "PYTHONUNBUFFERED": unbuffered})
        if (told.returncode, told.stderr) != (1, "install: nobody reads all that it tells\n"):
            fail(f"an install of which nobody reads what it tells: status {told.returncode}, {told.stderr}")
    os.close(out)
    for text in b"tree\n", b"tree a\n\n", b"\xff \n":
        record.write_bytes(text)
        for word in "--check", "--uninstall":
            told = subprocess.run([*words, word], capture_output=True, text=True)
            if told.returncode != 1 or not told.stderr.startswith(f"install: {record}: ") or told.stderr.count("\n") != 1:
                fail(f"{word} with a record of {text}: status {told.returncode}, {told.stderr}")


def try_locked(room):
    """Where a file can't be removed, --uninstall says so, and what is left is on record; in a folder whose name is no text, too."""
    prefix, library = room / os.fsdecode(b"n\xe4me\n") / "prefix", room / "locked.so"
    words = [TOP / "install", "--prefix", prefix]
    if not has("cc"):
        return
    run("cc", "-O2", "-shared", "-fPIC", "-o", library, pathlib.Path(__file__).with_name("locked.c"))
    run(*words)
    told = subprocess.run([*words, "--uninstall"], capture_output=True, env={**os.environ, "LD_PRELOAD": str(library)})
    if told.returncode != 1 or not told.stderr.endswith(b"/prefix/bin/lfiload: Permission denied\n"):
        fail(f"--uninstall where the program can't be removed: status {told.returncode}, {told.stderr}")
    run(*words, "--uninstall")
    if prefix.parent.exists():
        fail(f"left after a second --uninstall: {sorted(map(str, prefix.rglob('*')))}")


def try_oldest_python(prefix):
    """CPython 3.9 installs, installs again, looks and uninstalls, as the README promises."""
    python = oldest_python()
    for more in ((), (), ("--check",), ("--uninstall",)) if python else ():
        run(python, TOP / "install", "--prefix", prefix, *more)


def try_stops(room, archive):
    """What can't be installed is told, and an install that stands there stays as it is; where the prefix is told from here, it is there."""
    prefix, missing = room / "stops" / "prefix", room / "missing.a"
    (room / "stops").mkdir()
    run(TOP / "install", "--prefix", "stops/prefix", cwd=room)
    before = {it: (it.stat().st_mtime_ns, it.read_bytes()) for it in files_in(prefix)}
    library = ["--library", "--archive", archive]
    # Of the program alone nothing is linked.
    run(TOP / "install", "--check", "--prefix", "stops/prefix", "--archive", archive, cwd=room, env={**os.environ, "CC": "no-compiler"})
    stops = (
        (["--no-program"], {}, "nothing to install: --no-program goes with --library"),
        (["--library", "--archive", missing], {}, f"{missing} isn't there: checks/build --library proves and builds it"),
        (library, {"CC": "no-compiler"}, "no shared library: no-compiler: No such file or directory; name a C compiler by CC"),
        (library, {"CC": "false"}, "no shared library: false "),
        (["--check", "--prefix", "none"], {}, f"nothing is installed in {room / 'none'}"),
        (["--uninstall", "--prefix", "none"], {}, f"nothing is installed in {room / 'none'}"),
    )
    for words, more, why in stops:
        told = subprocess.run([TOP / "install", "--prefix", "stops/prefix", *words], cwd=room, capture_output=True, text=True, env={**os.environ, **more})
        if (told.returncode, told.stdout) != (1, "") or not told.stderr.startswith(f"install: {why}"):
            fail(f"install {' '.join(map(str, words))}: status {told.returncode}, {told.stdout}{told.stderr}, and not {why}")
        if {it: (it.stat().st_mtime_ns, it.read_bytes()) for it in files_in(prefix)} != before:
            fail(f"install {' '.join(map(str, words))} stops, and changes what is installed")
    run(TOP / "install", "--uninstall", "--prefix", "prefix", cwd=room / "stops")
    if list((room / "stops").iterdir()):
        fail(f"left after --uninstall of a prefix that is told from here: {list((room / 'stops').iterdir())}")


# ---- other archives and trees

def try_other_tree(room, prefix):
    """--check by a tree in which nothing is built says so; it tells at which commit that tree stands, and whether files differ, and
    writes nothing there."""
    top = room / "tree"
    for name in "include", "docs", "completions":
        shutil.copytree(TOP / name, top / name)
    shutil.copy(TOP / "install", top)
    git = commit_all(top)
    head, index = run(*git, "rev-parse", "HEAD").strip(), top / ".git" / "index"
    for this in head, f"{head}-dirty":
        written = index.stat().st_mtime_ns
        os.utime(top / "install", (1, 1))
        told = run(top / "install", "--check", "--prefix", prefix, status=1).splitlines()
        if not re.fullmatch(rf"installed from the tree ([0-9a-f]{{40}}(-dirty)?|without a commit); this one is {this}", told[0]) or "bin/lfiload: this tree has none built" not in told:
            fail(f"--check by a tree at {this} in which nothing is built tells {told}")
        if index.stat().st_mtime_ns != written:
            fail("--check writes git's index")
        with open(top / "docs" / "C.md", "a", encoding="utf-8") as file:
            file.write("\n")


def tell_sources(stub, prefix, wanted="no stamp tells that it was built from this tree's sources"):
    """An install of an archive says what it was made from; where nothing proved it, so."""
    told = run(TOP / "install", "--prefix", prefix, "--library", "--no-program", "--archive", stub, umask=0o077)
    others = [it for it in told.splitlines() if not it.endswith(": installed")]
    if others != [f"{os.path.relpath(stub, TOP)}: {wanted}"]:
        fail(f"an install of an archive of which is wanted {wanted!r} tells {told}")


def tell_by_stamps(stub, prefix, stamp):
    """An archive is of these sources where its stamp has their sum and the archive's own: not with another file's, nor of other sources."""
    tell_sources(stub, prefix)
    if stamp.exists():
        shutil.copy(stamp, stub.parent)
        tell_sources(stub, prefix)
    if not shutil.which("rt"):
        untried.append("rt isn't here")
        return
    sources, own = script("build").stamps_of("lfi_verifier")[0], hashlib.sha256(stub.read_bytes()).hexdigest()
    others = ("0" if sources[0] != "0" else "1") + sources[1:]
    for sum_, wanted in (others, {}), (sources, {"wanted": "proved and built from this tree's sources"}):
        stub.with_name("liblfi_verifier.stamp").write_text(sum_ + own)
        tell_sources(stub, prefix, **wanted)


def try_program_alone(room):
    """A program is of these sources where its stamp has their sum and its own, as an archive is. Where it isn't there, that is told."""
    top, missing = room / "program", "install: crates/lfiload/out/lfiload isn't there: checks/build proves and builds it\n"
    shutil.copytree(TOP, top, ignore=shutil.ignore_patterns(".git", "out"), symlinks=True)
    told = subprocess.run([top / "install", "--prefix", room / "none"], capture_output=True, text=True)
    if (told.returncode, told.stdout, told.stderr) != (1, "", missing) or (room / "none").exists():
        fail(f"an install of a tree without a program: status {told.returncode}, {told.stdout}{told.stderr}")
    program = top / "crates" / "lfiload" / "out" / "lfiload"
    program.parent.mkdir()
    program.write_text("#!/bin/sh\n")
    program.chmod(0o755)
    stamp, own = TOP / "crates" / "lfiload" / "out" / "lfiload.stamp", hashlib.sha256(program.read_bytes()).hexdigest()
    texts = {stamp.read_text(): False} if stamp.exists() else {}
    if has("rt"):
        sources = script("build").stamps_of("lfiload")[0]
        texts |= {("0" if sources[0] != "0" else "1") + sources[1:] + own: False, sources + own: True}
    for text, is_of in texts.items():
        program.with_name("lfiload.stamp").write_text(text)
        last = run(top / "install", "--prefix", room / "alone").splitlines()[-1]
        wanted = "proved and built from this tree's sources" if is_of else "no stamp tells that it was built from this tree's sources"
        if last != f"crates/lfiload/out/lfiload: {wanted}":
            fail(f"an install of a program of which is wanted {wanted!r} tells {last}")
    try_without_git(top, room / "without_git")
    try_upgrade(top, room / "upgrade")


def try_without_git(top, prefix):
    """A checkout is installed where git isn't, as one without a commit."""
    (top / ".git").mkdir()
    (prefix / "tools").mkdir(parents=True)
    run(sys.executable, top / "install", "--prefix", prefix / "it", env={**os.environ, "PATH": str(prefix / "tools")})
    record = (prefix / "it" / "share" / "lfiload" / "installed").read_text()
    if not record.startswith("tree without a commit\n"):
        fail(f"an install where git isn't records {record.splitlines()[0]}")
    (top / ".git").rmdir()


def try_upgrade(top, prefix):
    """An install in the place of another that fails midway, twice, is on record with both: --check tells what is of the one before, and --uninstall
    leaves nothing; so where it is done again."""
    program, page = top / "crates" / "lfiload" / "out" / "lfiload", top / "docs" / "lfiload.1"
    words = [top / "install", "--prefix", prefix]
    for again in False, True:
        program.write_text("#!/bin/sh\n")
        run(*words)
        page.write_text(page.read_text() + f"{again}\n")
        program.write_bytes(b"#!/bin/sh\n" + bytes(100_000))
        for _ in range(2):
            told = subprocess.run(words, capture_output=True, text=True, preexec_fn=up_to_64_kib)
            if told.returncode != 1 or told.stderr != f"install: {prefix / 'bin' / 'lfiload'}: File too large\n":
                fail(f"an install in the place of another that can't write the program: status {told.returncode}, {told.stderr}")
        if (prefix / "bin" / "lfiload").read_text() != "#!/bin/sh\n":
            fail("an install that fails in the place of another takes its program away")
        told = run(*words, "--check", status=1)
        if any(f"{name}: of an install before\n" not in told for name in ("bin/lfiload", PAGE)) or "changed" in told:
            fail(f"--check of an install that failed in the place of another tells {told}")
        if again:
            told, record = run(*words), prefix / "share" / "lfiload" / "installed"
            wanted = {f"{it.relative_to(prefix)}: installed" for it in files_in(prefix) if it != record}
            if set(told.splitlines()[:-1]) != wanted or "was " in record.read_text():
                fail(f"an install after one that failed tells {told} and records {record.read_text()}")
            lines = run(*words, "--check").splitlines()
            if set(lines[1:-1]) != {it.replace(": installed", ": of this tree") for it in wanted} or not lines[-1].startswith("crates/lfiload/out/lfiload: "):
                fail(f"--check of an install after one that failed tells {lines}")
        run(*words, "--uninstall")
        if prefix.exists():
            fail(f"left of an install that failed in the place of another: {sorted(map(str, prefix.rglob('*')))}")


def try_library_alone(room, version, archive):
    """The library alone, of an archive that nothing proved, in folders that aren't there, with a mask that lets nobody else in."""
    stub, above = room / "unproved" / "liblfi_verifier.a", room / "above 100%41\n"
    prefix, stamp = above / "it" / "prefix", archive.with_name("liblfi_verifier.stamp")
    put_stub(stub.parent, version, version)
    tell_by_stamps(stub, prefix, stamp)
    compare_modes(above)
    alone = of_document(r"^\| share/doc/lfiload/ \| ([A-Z, ]+); with the program")[1].split(", ")
    found = sorted(it.name for it in (prefix / "share" / "doc" / "lfiload").iterdir())
    # C: | bin/lfiload, its man page, its completions | the program, but with `--no-program` | | share/doc/lfiload/ | C, HOST; with the
    #   program COMMANDS, GLOSSARY, PROFILE |
    if (prefix / "bin").exists() or found != sorted(f"{it}.md" for it in alone):
        fail(f"the library alone is installed with the documents {found}, and the program: {(prefix / 'bin').exists()}")
    told = run(TOP / "install", "--check", "--prefix", prefix, "--archive", archive, status=1).splitlines()
    if not {"lib/liblfi_verifier.a: of another tree", "include/lfi_verifier.h: of this tree"} <= set(told):
        fail(f"--check of another archive tells {told}")
    run(TOP / "install", "--uninstall", "--prefix", prefix)
    if above.exists():
        fail(f"left after --uninstall: {sorted(map(str, [above, *above.rglob('*')]))}")


# C: `./install --prefix P --library` builds the archive where there is none yet, and then installs, with a C compiler.
def try_built_first(room, version):
    """Where there is no archive, it is built by `checks/build --library`: here one that copies another one to its place."""
    top, stub, place = room / "unbuilt_tree", room / "unbuilt_stub" / "liblfi_verifier.a", re.search(r"at (out/)TARGET(/\S+\.a)", (TOP / "docs" / "C.md").read_text())
    shutil.copytree(TOP, top, ignore=shutil.ignore_patterns(".git", "out"), symlinks=True)
    put_stub(stub.parent, version, version)
    archive, build = f"{place[1]}{platform.machine()}-unknown-linux-gnu{place[2]}", top / "checks" / "build"
    copies = f"    assert sys.argv[1:] == ['--library']\n    os.makedirs(os.path.dirname({archive!r}))\n    shutil.copy({str(stub)!r}, {archive!r})\n"
    first, rest = build.read_text().split("\n", 1)
    build.write_text(f"{first}\nimport os, shutil, sys\nif __name__ == '__main__':\n    os.chdir({str(top)!r})\n{copies}    sys.exit()\n{rest}")
    told = run(top / "install", "--prefix", room / "unbuilt_prefix", "--library", "--no-program")
    if not told.startswith("checks/build --library proves and builds the archive first\n") or not (room / "unbuilt_prefix" / "lib" / stub.name).exists():
        fail(f"an install of a tree without an archive tells {told}")


def try_folders_of_others(room, version):
    """A folder that was there before an install keeps its rights, and stays when that is taken away. An empty CC names no compiler, and one of
    two words a compiler with an option."""
    prefix, stub = room / "rights_prefix", room / "rights_stub" / "liblfi_verifier.a"
    put_stub(stub.parent, version, version)
    modes = {prefix: 0o711, prefix / "lib": 0o2770, prefix / "include": 0o700, prefix / "share": 0o1777}
    for folder, mode in modes.items():
        folder.mkdir()
        folder.chmod(mode)
    put, shared = ["--library", "--no-program", "--archive", stub], prefix / "lib" / "liblfi_verifier.so"
    for words, compiler in (put, " "), (["--uninstall"], " "), (put, "cc -O1"), (["--uninstall"], "cc"):
        run(TOP / "install", "--prefix", prefix, *words, env={**os.environ, "CC": compiler})
        if shared.exists() != (words == put):
            fail(f"install {words[0]} with CC={compiler!r}: a shared library is there: {shared.exists()}")
        found = {folder: folder.exists() and stat.S_IMODE(folder.stat().st_mode) for folder in modes}
        if found != modes:
            fail(f"after install {words[0]} the folders that were there have the modes {found.values()}, and not {modes.values()}")


def try_outputs(prefix):
    """Where nobody takes what is told, that is said, or it was asked for."""
    words = f"{shlex.quote(str(TOP / 'install'))} --check --prefix {shlex.quote(str(prefix))}"
    for more, wanted in ("> /dev/full", (1, "install: standard output: No space left on device\n")), (">&-", (0, "")):
        done = subprocess.run(f"{words} {more}", shell=True, stderr=subprocess.PIPE, text=True)
        if (done.returncode, done.stderr) != wanted:
            fail(f"install --check {more}: {done}")


def try_told_prefix():
    """The prefix where none is said is the one of the help."""
    told = re.search(r"^The prefix is (\S+) where it isn't said", run(TOP / "install", "--help"), re.M)[1]
    without, with_it = (subprocess.run([TOP / "install", "--check", *words], capture_output=True, text=True) for words in ([], ["--prefix", told]))
    if (without.returncode, without.stdout, without.stderr) != (with_it.returncode, with_it.stdout, with_it.stderr):
        fail(f"install --check tells {without.stdout}{without.stderr} where no prefix is said, and the help says {told}")


# C: For another machine `--archive out/aarch64-unknown-linux-gnu/liblfi_verifier.a --no-program` and `CC=aarch64-linux-gnu-gcc` install the
#   library alone.
def try_another_machine(room, version):
    """What docs/C.md says of AArch64, with its archive where that is built, makes a shared library for it."""
    told = of_document(r"For another machine `--archive (\S+) --no-program` and `CC=(\S+)`")
    archive, compiler, here = told[1], told[2], TOP
    if not has(compiler):
        return
    if not (here / archive).exists():
        here = room / "elsewhere"
        (here / archive).parent.parent.mkdir(parents=True)
        put_stub((here / archive).parent, version, version, compiler)
    prefix = room / "machine"
    run(TOP / "install", "--prefix", prefix, "--library", "--archive", archive, "--no-program", cwd=here, env={**os.environ, "CC": compiler})
    head = (prefix / "lib" / "liblfi_verifier.so").read_bytes()[:20]
    # The field e_machine of an ELF header, which is EM_AARCH64.
    if int.from_bytes(head[18:], "little") != 183:
        fail(f"CC={compiler} installs a shared library that begins {head}")
