"""What is left of a certificate where each allocation of a search in turn is refused: never a worse one than stood there.

A certificate is worse where `check` refuses it, where the value of its plan is greater, or where its level is less. No
certificate is left only where none stood before. A resumed search is told beside the certificate that it was given, too.
"""
import collections
import os
import re
import subprocess
import tempfile
from concurrent.futures import ThreadPoolExecutor
from functools import lru_cache

import finding
import refusing
from lines import FIXED, SMALL, text_of

NODES = 20000
# Lines of which a search of some 20,000 nodes ends with a proof, and without one.
LINES = (("with a proof", SMALL[18][1], 30000), ("without a proof", FIXED[8][1], NODES))
# The nodes of the search whose certificate is gone on with.
FIRST_NODES = 5000
NO_VALUE = 1 << 32

# How good a certificate is: the value of its plan, its level, and whether it is closed.
Standing = collections.namedtuple("Standing", "value level is_closed")
# A job: its name, its words but for paths, the certificate that it is given, the one that stands where it writes, and
# whether these are one file.
Job = collections.namedtuple("Job", "name words units given stands is_one", defaults=(False,))
# Of the allocations that a short form takes, how many are the last ones: there a search is brought to its end.
LAST = 12


def ended(program, words, env=None):
    """A run's text and its status."""
    done = subprocess.run([program, *words], stdin=subprocess.DEVNULL, stdout=subprocess.PIPE, stderr=subprocess.DEVNULL,
                          env=env, check=False)
    return done.stdout.decode("ascii", "replace"), done.returncode


def read(path):
    """The bytes of a file; none where there is none."""
    if not os.path.exists(path):
        return None
    with open(path, "rb") as file:
        return file.read()


def write(path, text):
    with open(path, "wb") as file:
        file.write(text)


class Judge:
    """Says how good certificates of one line are, by `check`."""

    def __init__(self, program, units, folder):
        self.program, self.units, self.folder = program, units, folder

    @lru_cache(maxsize=4096)
    def of(self, cert):
        """How good a certificate is; none where it isn't right."""
        with tempfile.NamedTemporaryFile(dir=self.folder) as file:
            file.write(cert)
            file.flush()
            text, code = ended(self.program, ["check", "--cert", file.name, self.units])
        if code not in (0, 1, 2):
            return None
        value = re.search(rb"^value (\d+)$", cert, re.MULTILINE)
        value = int(value[1]) if value else NO_VALUE
        told = re.fullmatch(r"(?:at )?least (\d+)\n", text)
        return Standing(value, int(told[1]) if told else NO_VALUE, code != 2)

    def is_less(self, after, before):
        """Whether a right certificate says less than another one."""
        new, old = self.of(after), self.of(before)
        return old.value < new.value or new.level < old.level or (old.is_closed and not new.is_closed)


def jobs_of(program, folder):
    """The jobs, on both lines, with the judge of each."""
    for how, line, nodes in LINES:
        units = os.path.join(folder, f"{how}.toml")
        write(units, text_of(line).encode("ascii"))

        def cert_of(count, units=units):
            path = os.path.join(folder, "made.cert")
            ended(program, ["plan", "--nodes", str(count), "--out", path, units])
            return read(path)

        judge, first, least = Judge(program, units, folder), cert_of(FIRST_NODES), cert_of(1)
        plan, resume = ["plan", "--nodes", str(nodes)], ["resume", "--nodes", str(nodes - FIRST_NODES)]
        yield judge, Job(f"plan --out C, {how}", plan, units, None, None)
        yield judge, Job(f"plan --out C over one of a single node, {how}", plan, units, None, least)
        yield judge, Job(f"plan --keep --out C over one of a single node, {how}", [*plan, "--keep"], units, None, least)
        yield judge, Job(f"resume --cert C --out C, {how}", resume, units, first, first, True)
        yield judge, Job(f"resume --cert B --out C, {how}", resume, units, first, None)
        yield judge, Job(f"resume --cert B --out C over the same one, {how}", resume, units, first, first)
        crew = [*resume, "--workers", "2"]
        yield judge, Job(f"resume --workers 2 --cert C --out C, {how}", crew, units, first, first, True)


class Runs:
    """Runs of a job, each in a folder of its own, with an allocation refused."""

    def __init__(self, program, library, job, folder):
        self.program, self.library, self.job, self.folder = program, library, job, folder

    def run(self, number):
        """What is left of the certificate where the allocation of this number is refused; the status, and how many
        allocations were made."""
        with tempfile.TemporaryDirectory(dir=self.folder) as own:
            cert, given = os.path.join(own, "C"), os.path.join(own, "B")
            if self.job.stands is not None:
                write(cert, self.job.stands)
            words = [*self.job.words, "--out", cert]
            if self.job.given is not None:
                write(given, self.job.given)
                words += ["--cert", cert if self.job.is_one else given]
            refuser = refusing.Refuser(own, self.library)
            text, code = ended(self.program, [*words, self.job.units], refuser.env(number))
            return read(cert), f"{text.split(chr(10))[0] or 'nothing'} ({code})", code, refuser.made()


def left_of(job, judge, left, whole):
    """What a run left, in a word or two; whether that is allowed."""
    if left is None:
        return "none", job.stands is None
    if left == job.stands:
        return "as before", True
    if judge.of(left) is None:
        return "a wrong one", False
    if any(before is not None and judge.is_less(left, before) for before in (job.stands, job.given)):
        return "one that says less", False
    return ("whole" if left == whole else "another one"), True


def counted(runs, judge, most):
    """How often each kind of certificate is left, and which runs left one that isn't allowed."""
    whole, _, _, made = runs.run(0)
    answers, wrong = collections.Counter(), []
    numbers = refusing.some_of(made, most)
    if most is not None:
        numbers = sorted({*refusing.some_of(made, most - LAST), *range(max(1, made - LAST + 1), made + 1)})
    with ThreadPoolExecutor(len(os.sched_getaffinity(0))) as pool:
        for number, (left, told, code, _) in zip(numbers, pool.map(runs.run, numbers)):
            found, is_allowed = left_of(runs.job, judge, left, whole)
            answers[found] += 1
            if not is_allowed or (left is None and code in (0, 1, 2)):
                standing = judge.of(left) if left is not None else "nothing"
                wrong.append(f"allocation {number}: {told} left {found}: {standing}")
    return answers, wrong


def each_job(program, folder, most):
    """The jobs: the name of each, how often each kind of certificate is left, and which runs aren't allowed; none at all
    where allocations can't be refused."""
    library = refusing.library_in(folder)
    if library is None:
        return
    for judge, job in jobs_of(program, folder):
        yield (job.name, *counted(Runs(program, library, job, folder), judge, most))


def texts_that_stay(program, folder):
    """A unit text, and with its name each text over which no places of a worse plan are written."""
    units, placed = (os.path.join(folder, name) for name in ("stays.toml", "placed.toml"))
    text = read(os.path.join(finding.EXAMPLES, "assembly-line.toml"))
    write(units, text)
    ended(program, ["plan", "--strong", "--places", placed, units])
    yield units, "a text without places, with a line of its own", b"# A line of its own.\n" + text
    yield units, "better places", read(placed)


def is_left(program, library, folder, units, text, number):
    """Whether a text stays over which places are to be written where the allocation of a number is refused; how many were made."""
    with tempfile.TemporaryDirectory(dir=folder) as own:
        path = os.path.join(own, "P")
        write(path, text)
        refuser = refusing.Refuser(own, library)
        ended(program, ["plan", "--nodes", "1", "--places", path, units], refuser.env(number))
        return read(path) == text, refuser.made()


def each_text(program, folder, most):
    """The name of each such text, how often it stays, and which runs replaced it."""
    library = refusing.library_in(folder)
    for units, name, text in texts_that_stay(program, folder):
        made = is_left(program, library, folder, units, text, 0)[1]
        numbers = sorted({*refusing.some_of(made, most), *range(max(1, made - 4 * LAST), made + 1)})
        with ThreadPoolExecutor(len(os.sched_getaffinity(0))) as pool:
            found = list(pool.map(lambda number: is_left(program, library, folder, units, text, number)[0], numbers))
        wrong = [f"allocation {number}: {name} was replaced" for number, stays in zip(numbers, found) if not stays]
        yield name, collections.Counter({"as before": sum(found), "replaced": len(wrong)}), wrong
