"""What checks/build makes of a toolchain's answers, by one that proves nothing and only answers: for checks/delivered."""

import hashlib
import os
import shutil
import signal
import subprocess
import sys
import tempfile
import time
from pathlib import Path

from lib.installed import commit_all, fail, oldest_python, run
from lib.tree import TOP

ANSWERS = """import hashlib, os, pathlib, sys, time
RATTLE = "prove"


class Crate:
    def __init__(self, folder, top, said):
        self.folder, self.said = pathlib.Path(folder), said
        self.rlib = str(self.folder / "out" / "rlib" / "it.rlib")

    def stamp(self):
        return hashlib.sha256((self.folder / "src" / "status").read_bytes()).hexdigest()

    def stream(self, name):
        return None

    def is_built(self):
        return False

    def words(self, words, keeps):
        return words

    def call(self, *words):
        pathlib.Path(self.rlib).write_text("proved")
        if "WAITS" in os.environ:
            pathlib.Path(os.environ["WAITS"]).write_text("here")
            time.sleep(60)
        status = int((self.folder / "src" / "status").read_text())
        if status:
            print(f"{self.folder.name}: why it isn't proved")
        return status


def main(verb, *words):
    crate = Crate(os.getcwd(), None, {})
    status = int((crate.folder / "src" / "status").read_text())
    (crate.folder / "out").mkdir(exist_ok=True)
    if os.environ.get("NONE") in words:
        return 1
    made = crate.folder / "out" / ("liblfi_verifier.a" if verb == "lib" else "lfiload")
    with open(pathlib.Path(__file__).with_name("asked"), "a") as asked:
        print(crate.folder.name, verb, *words[:2], file=asked)
    if status == 0:
        made.write_text("new")
    if "CHANGES" in os.environ:
        (crate.folder / "src" / "status").write_text(f"{status}\\n")
    text = crate.folder / "src" / "main.rt"
    print("asked", verb, text.read_text() if verb == "run" else "")
    return status


if __name__ == "__main__":
    sys.exit(main(*sys.argv[1:]))
"""
VERSION = 'const VERSION: &str = "0.1.0, library interface 7";\n'


def put_tree(room):
    """A checkout of three crates, a program and a library over a third, and the toolchain that answers for them."""
    top, tools = room / "built", room / "tools"
    for folder in top / "checks", tools:
        folder.mkdir(parents=True)
    shutil.copy(TOP / "checks" / "build", top / "checks" / "build")
    (tools / "rtlib.py").write_text(ANSWERS)
    (tools / "rt").write_text(f"#!/bin/sh\nexec {sys.executable} {tools / 'rtlib.py'} \"$@\"\n")
    (tools / "rt").chmod(0o755)
    (top / "crates.txt").write_text("low:\nlfiload: low\nlfi_verifier staticlib: low\n")
    for name in "low", "lfiload", "lfi_verifier":
        source = top / "crates" / name / "src"
        source.mkdir(parents=True)
        (source / "main.rt").write_text(VERSION)
        (source / "status").write_text("0")
    (top / "HANDLES").write_text("Handles allowed: none.\n")
    (top / ".gitignore").write_text("out/\n")
    git = commit_all(top)
    return top, {**os.environ, "PATH": f"{tools}:{os.environ['PATH']}"}, run(*git, "rev-parse", "--short=12", "HEAD").strip()


def try_building(room):
    """The program of a checkout that is its commit tells the commit. Where the proof of a crate fails, by whatever status, nothing above
    it is made, the status says so, and an archive that was built before is neither put in its place nor called proved."""
    top, found, commit = put_tree(room)
    build, archive = [top / "checks" / "build"], top / "out" / "x86_64-unknown-linux-gnu" / "liblfi_verifier.a"
    told = run(*build, env=found)
    if f', commit {commit}, library interface 7"' not in told:
        fail(f"checks/build makes a program that tells no commit {commit}: {told}")
    library = [*build, "--library", "--target", "x86_64-unknown-linux-gnu"]
    run(*library, env=found)
    if archive.read_text() != "new":
        fail("checks/build --library puts no archive in its place")
    archive.write_text("old")
    run(oldest_python() or sys.executable, *library, env=found)
    if archive.read_text() != "new":
        fail("checks/build --library puts no archive in its place by the oldest Python")
    targets = "aarch64-unknown-linux-gnu", "x86_64-unknown-linux-gnu"
    for none in targets:
        done = subprocess.run([*build, "--library", *(it for target in targets for it in ("--target", target))], env={**found, "NONE": none}, capture_output=True, text=True)
        if done.returncode != 1 or f"{none}/liblfi_verifier.a: proved" in done.stdout:
            fail(f"checks/build --library, where no archive for {none} is built beside another one: {done.returncode}, {done.stdout}")
    for name in "lfi_verifier", "low":
        for status in 1, 2, 101:
            (top / "crates" / name / "src" / "status").write_text(str(status))
            archive.write_text("old")
            done = subprocess.run(library, env=found, capture_output=True, text=True)
            if done.returncode != status or archive.read_text() != "old" or "lfi_verifier.a: proved" in done.stdout:
                fail(f"checks/build --library, where the proof of {name} has status {status}: {done.returncode}, {done.stdout}")
            if f"\n{'low: why it isn' if name == 'low' else 'asked lib'}" not in done.stdout:
                fail(f"checks/build --library, where the proof of {name} has status {status}, doesn't print what was said: {done.stdout}")
        done = subprocess.run(build, env=found, capture_output=True, text=True)
        if (done.returncode == 0) != (name == "lfi_verifier"):
            fail(f"checks/build, where {name} isn't proved: {done.returncode}, {done.stdout}")
        (top / "crates" / name / "src" / "status").write_text("0")


def try_words(room):
    """Tests are run of the crates that are named with --test, by as many jobs as --jobs tells, which are some. The stamp of the library is that
    of the sources from which the build began, also where they change meanwhile."""
    top, found, _ = put_tree(room / "words")
    build, asked = top / "checks" / "build", room / "words" / "tools" / "asked"
    for words, wanted in (("low",), []), (("--test", "low"), ["low test --jobs 1"]), (("--keep", "low"), ["low lib --jobs 1"]), (
            ("--test", "low", "lfi_verifier"), ["low test --jobs 1", "lfi_verifier test --jobs 1"]):
        asked.write_text("")
        run(build, "--jobs", "1", *words, env=found)
        if asked.read_text().splitlines() != wanted:
            fail(f"checks/build {' '.join(words)} asks rt for {asked.read_text().splitlines()}")
    for words in ("--jobs", "0"), ("--jobs", "00"), ("--jobs", "-1"), ("--jobs", "x"), ("--jobs",), ("--tests",):
        done = subprocess.run([build, *words], env=found, capture_output=True, text=True)
        if done.returncode != 2 or done.stdout or not done.stderr.startswith(f"checks/build: {' '.join(words)}: ") or done.stderr.count("\n") != 1:
            fail(f"checks/build {' '.join(words)}: status {done.returncode}, {done.stderr}")
    begun = hashlib.sha256((top / "crates" / "lfi_verifier" / "src" / "status").read_bytes()).hexdigest()
    run(build, "--library", "--target", "x86_64-unknown-linux-gnu", env={**found, "CHANGES": "1"})
    stamp = (top / "out" / "x86_64-unknown-linux-gnu" / "liblfi_verifier.stamp").read_text()
    if not stamp.startswith(begun):
        fail(f"checks/build stamps a library of sources that changed meanwhile {stamp}, where the build began with {begun}")


def wait_for(file, running):
    """Waits until a build has come to the call that makes this file, or has ended. Answers whether it has come there."""
    while not file.exists() and running.poll() is None:
        time.sleep(0.05)
    return file.exists()


def try_ending(room):
    """A signal ends the checks that run; the crates' folders out/ are put back, and no scratch folder stays."""
    top, found, _ = put_tree(room / "ended")
    kept, waits, scratch = top / "crates" / "low" / "out" / "kept", room / "waits", room / "scratch"
    kept.parent.mkdir()
    scratch.mkdir()
    for number in signal.SIGTERM, signal.SIGINT:
        kept.write_text("kept")
        waits.unlink(missing_ok=True)
        began = time.monotonic()
        running = subprocess.Popen([top / "checks" / "build"], env={**found, "WAITS": str(waits), "TMPDIR": str(scratch)}, stdout=subprocess.DEVNULL)
        wait_for(waits, running)
        running.send_signal(number)
        status, took = running.wait(), time.monotonic() - began
        if status != 128 + number or took > 30 or not kept.exists() or list(scratch.glob("build-*")):
            fail(f"checks/build, ended by {number.name}: status {status} after {took:.0f} s, {list(scratch.glob('build-*'))}, out/ is back: {kept.exists()}")


def try_beside(room):
    """Of two builds in a checkout the second one begins when the first has ended: until then what was kept of a crate is elsewhere."""
    top, found, _ = put_tree(room / "beside")
    kept, waits, again = top / "crates" / "low" / "out" / "kept", room / "beside" / "waits", room / "beside" / "again"
    kept.parent.mkdir()
    kept.write_text("kept")
    build = [top / "checks" / "build", "low"]
    first = subprocess.Popen(build, env={**found, "WAITS": str(waits)}, stdout=subprocess.DEVNULL)
    wait_for(waits, first)
    second = subprocess.Popen(build, env={**found, "WAITS": str(again)}, stdout=subprocess.DEVNULL)
    time.sleep(2)
    early = second.poll(), again.exists()
    first.terminate()
    first.wait()
    began = wait_for(again, second)
    second.terminate()
    second.wait()
    left = sorted(it.name for it in kept.parent.iterdir())
    if early != (None, False) or not began or "kept" not in left or "out" in left:
        fail(f"checks/build beside another one: before that had ended {early}, then {began}, and out/ has {left}")


def try_another_disk(room):
    """Where the scratch folder is on another file system, crates are copied, and proved all the same."""
    place = Path("/dev/shm")
    if not place.is_dir() or place.stat().st_dev == room.stat().st_dev:
        return
    top, found, _ = put_tree(room / "disk")
    with tempfile.TemporaryDirectory(dir=place) as scratch:
        run(top / "checks" / "build", env={**found, "TMPDIR": scratch})


def try_all(room):
    try_building(room)
    try_words(room)
    try_ending(room)
    try_beside(room)
    try_another_disk(room)
