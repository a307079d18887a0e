"""The sources that the program is built of, and their hash."""
import hashlib
import os

TOP = os.path.dirname(os.path.dirname(os.path.abspath(__file__)))
PROGRAM = "ecplan"
PARTS = ("src", "specs", "proofs")
# How the names of source files end; what an editor leaves beside them begins with a dot or ends otherwise.
ENDS = (".rt", ".antt")


def lines_of_crates():
    """For each crate of crates.txt its line, in the order of the file."""
    found = {}
    with open(os.path.join(TOP, "crates.txt"), encoding="utf-8") as text:
        for line in text:
            name, colon, _ = line.partition(":")
            if colon and not line.startswith("#"):
                found[name.strip()] = line.strip()
    return found


def stands_on(lines, crate=PROGRAM):
    """A crate and those of this tree that it stands on, each after those below it."""
    needed = [crate]
    for name in needed:
        for below in lines[name].partition(":")[2].split():
            if below in lines and below not in needed:
                needed.append(below)
    return [name for name in lines if name in needed]


def is_source(name):
    """Whether a file of this name is a source."""
    return name.endswith(ENDS) and not name.startswith(".")


def files_of(crate):
    """The paths of a crate's sources, from the top."""
    found = []
    for part in PARTS:
        for folder, _, names in os.walk(os.path.join(TOP, "crates", crate, part)):
            found += [os.path.relpath(os.path.join(folder, name), TOP) for name in filter(is_source, names)]
    return sorted(found)


def sources(crates, lines):
    """The text of crates.txt for these crates alone, and the paths and bytes of all their sources."""
    listed = "".join(lines[crate] + "\n" for crate in crates).encode()
    with open(os.path.join(TOP, "HANDLES"), "rb") as handles:
        found = {"crates.txt": listed, "HANDLES": handles.read()}
    for crate in crates:
        for path in files_of(crate):
            with open(os.path.join(TOP, path), "rb") as text:
                found[path] = text.read()
    return found


def sum_of(found):
    """The hash of these sources: of each path with its bytes, in the order of the paths."""
    whole = hashlib.sha256()
    for path in sorted(found):
        whole.update(b"%d %d " % (len(path.encode()), len(found[path])))
        whole.update(path.encode() + found[path])
    return whole.hexdigest()[:32]


def hash_of_tree():
    """The hash of the sources of this tree."""
    lines = lines_of_crates()
    return sum_of(sources(stands_on(lines), lines))
