"""Runs in which an allocation is refused: `refuse.c`, built and loaded before the C library."""
import os
import shutil
import subprocess
import sys

SOURCE = os.path.join(os.path.dirname(os.path.abspath(__file__)), "refuse.c")
NO_COMPILER = "there is no C compiler that builds tests/refuse.c"


def library_in(folder):
    """The path of the built library, or none where it can't be built."""
    made = os.path.join(folder, "refuse.so")
    for compiler in (os.environ.get("CC", "cc"), "gcc", "clang"):
        words = [compiler, "-O2", "-shared", "-fPIC", "-o", made, SOURCE]
        if shutil.which(compiler) and subprocess.run(words, stderr=subprocess.DEVNULL, check=False).returncode == 0:
            return made
    return None


class Refuser:
    """The library, with a file in which it counts the allocations of a run."""

    def __init__(self, folder, library):
        self.library = library
        self.tally = os.path.join(folder, "allocations")

    def env(self, number):
        """The environment of a run whose allocation of this number, from 1, is refused; with 0 none is."""
        with open(self.tally, "wb") as zero:
            zero.write(bytes(8))
        return dict(os.environ, LD_PRELOAD=self.library, REFUSE=str(number), REFUSE_COUNT=self.tally)

    def made(self):
        """How many allocations the last run made."""
        with open(self.tally, "rb") as count:
            return int.from_bytes(count.read(), sys.byteorder)


def refuser(folder):
    """A refuser with its files in a folder, or none where there is no compiler."""
    library = library_in(folder)
    return Refuser(folder, library) if library else None


def some_of(count, most):
    """The numbers from 1 to a count, or where these are more than `most` (and that isn't none) as many, evenly apart, the
    first and the last among them."""
    if most is None or count <= most:
        return list(range(1, count + 1))
    return sorted({1 + round(k * (count - 1) / (most - 1)) for k in range(most)})
