"""A release, as checks/release packs it: for checks/delivered."""

import hashlib
import os
import pathlib
import platform
import re
import shutil
import subprocess
import sys
import tarfile

from lib import installed
from lib.installed import fail, run
from lib.tree import EXAMPLES, TOP

RUST, PYTHON = TOP / "bindings" / "rust", TOP / "bindings" / "python"


def version_of(told):
    """The program's version, of what `--version` tells."""
    return told.split()[1].rstrip(",")


def of_release(prefix):
    """What a release has, by name: what is installed, the bindings, and the README's documents but for those who contribute."""
    readme = (TOP / "README.md").read_text().partition("\n## Documents\n")[2].partition("To contribute")[0]
    bindings = [RUST / "Cargo.toml", RUST / "build.rs", *(RUST / "src").iterdir(), PYTHON / "lfi_verifier.py"]
    return {
        **{str(it.relative_to(prefix)): it for it in prefix.rglob("*") if it.is_symlink() or not it.is_dir()},
        **{f"share/lfiload/bindings/{it.relative_to(RUST.parent)}": it for it in bindings},
        **{f"share/doc/lfiload/{pathlib.Path(name).name}": TOP / name for name in re.findall(r"\(([\w/]+\.md)\)", readme)},
    }


# C: `checks/release` packs what is installed, with the bindings (share/lfiload/bindings) and the documents, as
#   out/lfiload-VERSION-TARGET.tar.gz.
def compare_release(file, head, prefix):
    """A release's names are in order below one folder, its bytes those of the prefix and of the tree, its owners and times 0."""
    with tarfile.open(file) as packed:
        found = {it.name: it.linkname or packed.extractfile(it).read() for it in packed.getmembers()}
        told = {(it.uid, it.gid, it.uname, it.gname, it.mtime) for it in packed.getmembers()}
        modes = {it.name: f"{it.mode:o}" for it in packed.getmembers() if it.isfile() and it.mode != installed.mode_of(it.name)}
    wanted = {f"{head}/{name}": os.readlink(it) if it.is_symlink() else it.read_bytes() for name, it in of_release(prefix).items()}
    if list(found) != sorted(wanted):
        fail(f"a release has other names, or in another order: {sorted(found.keys() ^ wanted.keys()) or list(found)}")
    if found != wanted:
        fail(f"a release has other bytes: {[name for name in wanted if found[name] != wanted[name]]}")
    if told != {(0, 0, "", "", 0)}:
        fail(f"a release tells owners and times: {told}")
    if modes:
        fail(f"a release has these modes: {modes}")


def modes_of(file):
    """The names that a release has, with their modes."""
    with tarfile.open(file) as packed:
        return [(it.name, it.mode) for it in packed.getmembers()]


def release_of_private_files(room, archive, name):
    """The release of a checkout that nobody else may read."""
    top, python = room / "private", installed.oldest_python() or sys.executable
    for part in "checks", "docs", "bindings", "completions", "include":
        shutil.copytree(TOP / part, top / part, ignore=shutil.ignore_patterns("out", "target", "__pycache__"))
    for part in "install", "CHANGELOG.md", "crates.txt", "HANDLES":
        shutil.copy(TOP / part, top / part)
    (top / "crates").symlink_to(TOP / "crates")
    for it in top.rglob("*"):
        if not it.is_symlink():
            it.chmod(it.stat().st_mode & 0o700)
    run(python, top / "checks" / "release", "--archive", archive, "--out", room / "third")
    return room / "third" / name


def try_release(room, prefix, archive):
    """Two releases are alike; one is unpacked, and used from there."""
    head = f"lfiload-{version_of(run(prefix / 'bin' / 'lfiload', '--version'))}-{platform.machine()}-unknown-linux-gnu"
    first, second = (room / place / f"{head}.tar.gz" for place in ("first", "second"))
    for file, mask in (first, 0o022), (second, 0o077):
        told = run(TOP / "checks" / "release", "--archive", archive, "--out", file.parent, umask=mask)
        if list(file.parent.iterdir()) != [file] or told != f"{hashlib.sha256(file.read_bytes()).hexdigest()}  {file}\n":
            fail(f"a release tells {told}, and makes {list(file.parent.iterdir())}")
    if first.read_bytes() != second.read_bytes():
        fail("two releases of one tree differ")
    if modes_of(first) != modes_of(release_of_private_files(room, archive, first.name)):
        fail("a release of a checkout whose files are the owner's alone has other modes")
    compare_release(first, head, prefix)
    shutil.unpack_archive(first, room / "unpacked")
    top = room / "unpacked" / head
    run(top / "bin" / "lfiload", "check", EXAMPLES / "checksums.code")
    found = {**os.environ, "PKG_CONFIG_PATH": str(top / "lib" / "pkgconfig"), "LFI_VERIFIER_LIB": str(top / "lib"), "CARGO_TARGET_DIR": str(room / "cargo2")}
    run(sys.executable, "-c", f"import lfi_verifier; lfi_verifier.verify(open({str(EXAMPLES / 'checksums.code')!r}, 'rb').read())",
        cwd=top / "share" / "lfiload" / "bindings" / "python", env=found)
    if shutil.which("pkg-config"):
        run("cc", EXAMPLES / "host.c", *run("pkg-config", "--cflags", "--libs", "lfi_verifier", env=found).split(), "-o", room / "released")
    if shutil.which("cargo"):
        run("cargo", "build", "--offline", "--quiet", cwd=top / "share" / "lfiload" / "bindings" / "rust", env=found)
    refuse_release(room, prefix, archive)


def refuse_release(room, prefix, archive):
    """A version of which CHANGELOG.md has no part of its own isn't packed."""
    top, version = room / "unwritten", version_of(run(prefix / "bin" / "lfiload", "--version"))
    (top / "checks").mkdir(parents=True)
    shutil.copy(TOP / "checks" / "release", top / "checks")
    for name in "install", "docs", "bindings":
        (top / name).symlink_to(TOP / name)
    text = (TOP / "CHANGELOG.md").read_text()
    for other in f"## {version}.1", f"## {version}-next", f"### {version}", f"Since {version}":
        (top / "CHANGELOG.md").write_text(text.replace(f"\n## {version}", f"\n{other}"))
        told = subprocess.run([top / "checks" / "release", "--archive", archive], capture_output=True, text=True)
        if (told.returncode, told.stdout, told.stderr) != (1, "", f"release: CHANGELOG.md has no part of version {version}\n") or (top / "out").exists():
            fail(f"a release of version {version}, of which CHANGELOG.md has {other}: status {told.returncode}, {told.stdout}{told.stderr}")
