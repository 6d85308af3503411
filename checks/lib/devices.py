"""The part of checks/hostile on files of two devices that have the same inode: in a mount namespace with two file systems in memory, of
which each gives the same numbers to its files."""

import ctypes
import os
import pathlib
import subprocess
import sys
import tempfile
import time

from lib import formats
from lib.cases import NOP, RET, wrong
from lib.serving import connected

NEW_MOUNTS, NEW_USER, PRIVATE, READ_ONLY, REMOUNTED = 0x00020000, 0x10000000, 0x44000, 1, 32
SECONDS = 60

libc = ctypes.CDLL("libc.so.6", use_errno=True)


def may_mount():
    """Has this process its own mounts; where it isn't the system's own user, also its own users. Whether the system lets it."""
    user, group = os.getuid(), os.getgid()
    if not libc.unshare(NEW_MOUNTS):
        return True
    if libc.unshare(NEW_USER | NEW_MOUNTS):
        return False
    try:
        for name, text in ("setgroups", "deny"), ("uid_map", f"0 {user} 1"), ("gid_map", f"0 {group} 1"):
            pathlib.Path("/proc/self", name).write_text(text)
    except OSError:
        return False
    return True


def mounted(*folders):
    """Mounts an empty file system at each folder, for this process and what it starts. Whether the system lets it."""
    return may_mount() and not libc.mount(b"none", b"/", None, PRIVATE, None) and not any(libc.mount(b"none", it.encode(), b"tmpfs", 0, None) for it in folders)


def turn(link, folder):
    """Has a link lead to another folder, at once."""
    os.symlink(folder, link + ".new")
    os.replace(link + ".new", link)


def same_inode(one, other):
    return one.stat().st_ino == other.stat().st_ino and one.stat().st_dev != other.stat().st_dev


def try_socket(program, link, one, other):
    """Another device's file has come to stand at the path of `serve`: it isn't removed."""
    words = [program, "serve", "--socket", os.path.join(link, "s"), "--connections", "1"]
    serving = subprocess.Popen(words, stdout=subprocess.PIPE, stderr=subprocess.PIPE)
    while serving.poll() is None and not os.path.exists(os.path.join(one, "s")):
        time.sleep(0.01)
    time.sleep(0.5)
    pathlib.Path(other, "s").touch()
    if not same_inode(pathlib.Path(one, "s"), pathlib.Path(other, "s")):
        wrong("devices", "two file systems", "files of different inodes", "of the same")
    turn(link, other)
    with connected(os.path.join(one, "s")) as client:
        client.sendall(formats.stream(0, RET))
    serving.communicate(timeout=60)
    if not pathlib.Path(other, "s").exists():
        wrong("devices", "another device's file at the socket's path", "is gone", "stays")


def is_turned(program, link, one, other):
    """Whether another device's file came to stand at an image's name while the image was written: the program has to tell that."""
    turn(link, one)
    for folder in one, other:
        for it in os.listdir(folder):
            os.unlink(os.path.join(folder, it))
    at, there = pathlib.Path(one, "module-00.img"), pathlib.Path(other, "module-00.img")
    load = subprocess.Popen([program, "load", "--out", link, "long.stream"], stdout=subprocess.DEVNULL, stderr=subprocess.PIPE, text=True)
    while load.poll() is None and not at.exists():
        pass
    while at.exists() and (not there.exists() or there.stat().st_ino < at.stat().st_ino):
        there.unlink(missing_ok=True)
        there.touch()
    turn(link, other)
    told, status = load.communicate(timeout=60)[1], load.returncode
    same = at.exists() and there.exists() and same_inode(at, there)
    if same and status and (status, told) != (3, f"lfiload: cannot write {link}/module-00.img\n"):
        wrong("devices", "another device's image", (status, told), 3)
    return same and status == 3


def try_read_only(program):
    """An image on a file system that may only be read, and on one that is full: each is told by its reason."""
    if libc.mount(b"none", b"one", b"tmpfs", REMOUNTED | READ_ONLY, None) or libc.mount(b"none", b"other", b"tmpfs", REMOUNTED, b"size=4096"):
        return "; left out are those that are full or only read, since the system changes no mount here"
    pathlib.Path("small.stream").write_bytes(formats.stream(0, RET))
    pathlib.Path("other", "filling").write_bytes(bytes(4096))
    for place, why in ("one", "Read-only file system"), ("other", "No space left on device"):
        load = subprocess.run([program, "load", "--out", place, "small.stream"], capture_output=True, text=True, timeout=60)
        wanted = 3, f"lfiload: cannot write {place}/module-00.img\n  {why}\n"
        if (load.returncode, load.stderr) != wanted:
            wrong("devices", f"an image on such a file system: {place}", (load.returncode, load.stderr), wanted)
    return "; so is one on a device that is full or only read"


def carry_out(program, folder):
    """All, where the system lets a process mount."""
    one, other, link = (os.path.join(folder, it) for it in ("one", "other", "link"))
    if not mounted(one, other):
        print("devices: left out, since the system lets nobody mount here", flush=True)
        return
    os.chdir(folder)
    try_socket(program, link, one, other)
    pathlib.Path("long.stream").write_bytes(formats.stream(0, NOP * 4_194_303 + RET))
    tried, until = 1, time.monotonic() + SECONDS
    while not is_turned(program, link, one, other):
        if time.monotonic() > until:
            wrong("devices", "another device's image", f"never told in {tried} loads", "told once")
        tried += 1
    for place in one, other:
        for it in os.listdir(place):
            os.unlink(os.path.join(place, it))
    others = try_read_only(program)
    print(f"devices: a file of another device at the socket's path stays; one at an image's name is told, at load {tried}{others}", flush=True)


def try_devices(program):
    """In a process of its own, which alone sees what it mounts."""
    with tempfile.TemporaryDirectory() as folder:
        for name in "one", "other":
            os.mkdir(os.path.join(folder, name))
        os.symlink(os.path.join(folder, "one"), os.path.join(folder, "link"))
        child = os.fork()
        if not child:
            status = 1
            try:
                carry_out(program, folder)
                status = 0
            except BaseException as failed:
                print(failed, file=sys.stderr, flush=True)
            finally:
                os._exit(status)
        if os.waitpid(child, 0)[1]:
            sys.exit("hostile: devices: it failed")
