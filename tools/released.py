"""The released program: what its text says, and whether it can be used here."""
import hashlib
import os
import subprocess

from placing import bytes_at, write_whole
from sources import PROGRAM, TOP

FOLDER = os.path.join(TOP, "release")
PATH = os.path.join(FOLDER, PROGRAM)
TEXT = os.path.join(FOLDER, "RELEASE.txt")
# The keys of the text, a line each.
KEYS = ("program", "version", "target", "kit", "sources", "bytes", "sha256")
# What the kit's compiler makes, and the C library that it is linked with.
TARGET = "x86-64-v2 Linux, GNU C library 2.34 or later"
# The exit status of --version.
TOLD = 5


class Unusable(Exception):
    """The released program isn't taken; why, in one line."""


def hash_of(content):
    """The SHA-256 of some bytes."""
    return hashlib.sha256(content).hexdigest()


def stated():
    """What the text of the release says, by its keys."""
    try:
        with open(TEXT, encoding="ascii") as text:
            found = dict(line.rstrip("\n").split(" ", 1) for line in text if " " in line)
    except (OSError, UnicodeDecodeError) as error:
        raise Unusable("release/RELEASE.txt can't be read: %s" % getattr(error, "strerror", error)) from error
    for key in KEYS:
        if key not in found:
            raise Unusable("release/RELEASE.txt has no line %s" % key)
    return found


def need_right(tree):
    """What the text of the release says, and the bytes of its program. Refuses a release that isn't of the sources with this
    hash, or whose program isn't the one that its text names."""
    told = stated()
    if told["sources"] != tree:
        raise Unusable("the released program isn't of these sources (theirs is %s, the release's %r)" % (tree, told["sources"]))
    try:
        content = bytes_at(PATH)
    except OSError as error:
        raise Unusable("release/%s can't be read: %s" % (PROGRAM, error.strerror)) from error
    if hash_of(content) != told["sha256"]:
        raise Unusable("release/%s isn't the released program: its SHA-256 is %s, and its text says %r; `git checkout release` "
                       "brings it back" % (PROGRAM, hash_of(content), told["sha256"]))
    for key, is_so in (("program", PROGRAM), ("target", TARGET), ("bytes", str(len(content)))):
        if told[key] != is_so:
            raise Unusable("release/RELEASE.txt says %s %r, and it is %s" % (key, told[key], is_so))
    return told, content


def need_runs(program, version):
    """Refuses a program that can't run on this machine, or is of another version."""
    try:
        done = subprocess.run([program, "--version"], stdin=subprocess.DEVNULL, capture_output=True, timeout=20)
    except (OSError, subprocess.TimeoutExpired) as error:
        raise Unusable("the released program can't run here: %s" % error) from error
    if done.returncode == TOLD and done.stdout == b"%s %s\n" % (PROGRAM.encode(), version.encode()):
        return
    why = done.stderr.decode("utf-8", "replace").strip().split("\n")[0]
    raise Unusable("the released program can't run here: %r" % (why[:200] or done.stdout or "status %d" % done.returncode))


def take(tree, places):
    """Puts the released program at the first of these paths where it can be written and runs, and answers that path; where
    there is none, the path of the release itself. What is started has the hash that its text says."""
    told, content = need_right(tree)
    for place in places:
        try:
            return write_whole(place, content, lambda new: need_runs(new, told["version"]))
        except (OSError, Unusable):
            continue
    need_runs(PATH, told["version"])
    return PATH
