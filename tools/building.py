"""Proving and building the program, and where it is kept.

Only the crates that the program stands on are proved, in the user's cache: as many side by side as processors and memory
allow, each in a folder of its own, since a check waits for others in its folder. What was proved in one of them serves in the
others. An interrupted run goes on there.
"""
import fcntl
import os
import shutil
import signal
import subprocess
import sys
import tempfile
import time

import released
from placing import bytes_at, write_whole
from sources import PARTS, PROGRAM, TOP, hash_of_tree, is_source, lines_of_crates, sources, stands_on, sum_of
from symbols import without_symbols

# How the line begins that says that the program is proved, now or by an earlier run over the same sources.
PROVED = (b"logic=proved", b"rt: nothing has changed since the last proved build")
# What is said before the path of what the provers said.
NOT_BUILT = "the program could not be built; what was said of it is in "
# Memory that one prover may take, in KiB.
PROVER_KIB = 2 << 20
# Each job reads all libraries, so that with more than one most crates take longer, also where nothing runs beside them.
ONE_JOB = ("--jobs", "1")
# How many crates are proved at once at most. With more, most would wait for others, and each takes some gigabytes of the disk.
MOST_AT_ONCE = 4
# Where the seconds of processor stand that each crate's proof takes, roughly, and what serves where a crate isn't in it.
# They only serve the guess of what is left.
TABLE, USUAL = os.path.join(TOP, "bench", "gate-seconds.txt"), 30
# Seconds of them that are done in a second, with one prover and for each further one, and how long a run goes on before
# its own speed counts for as much as these.
ALONE, FURTHER, SETTLING = 1.0, 0.4, 300


def stop(why):
    """Ends with one line that says what to do."""
    print("ecplan: " + why, file=sys.stderr)
    sys.exit(4)


def say(what):
    print("ecplan: " + what, file=sys.stderr, flush=True)


def cache_folder():
    """The user's cache folder for this program, or out/ of the tree where the environment names none."""
    home = os.environ.get("HOME", "")
    caches = [os.environ.get("XDG_CACHE_HOME", ""), os.path.join(home, ".cache") if home else ""]
    folders = [os.path.join(cache, PROGRAM) for cache in caches if os.path.isabs(cache)]
    return folders[0] if folders else os.path.join(TOP, "out")


def kit_line():
    """The line of the kit that is here, or none."""
    if shutil.which("rt") is None:
        return None
    return subprocess.run(["rt", "version"], capture_output=True, text=True, check=False).stdout.strip() or None


def make_same(folder, found):
    """Lets the folder have these files and no other sources; a file that is the same is left alone."""
    for path, content in found.items():
        place = os.path.join(folder, path)
        os.makedirs(os.path.dirname(place), exist_ok=True)
        if not os.path.exists(place) or open(place, "rb").read() != content:
            with open(place, "wb") as text:
                text.write(content)
    crates = os.path.join(folder, "crates")
    for crate in os.listdir(crates) if os.path.isdir(crates) else ():
        for part in PARTS:
            for inner, _, names in os.walk(os.path.join(crates, crate, part)):
                for name in filter(is_source, names):
                    path = os.path.join(inner, name)
                    if os.path.relpath(path, folder) not in found:
                        os.remove(path)


def provers():
    """How many crates are proved at once: one for each processor, as far as memory allows."""
    free = PROVER_KIB
    with open("/proc/meminfo", encoding="ascii") as told:
        for line in told:
            if line.startswith("MemAvailable:"):
                free = int(line.split()[1])
    return max(1, min(MOST_AT_ONCE, len(os.sched_getaffinity(0)), free // PROVER_KIB))


def usual_seconds():
    """The seconds that each crate's proof takes, by the table."""
    found = {}
    try:
        with open(TABLE, encoding="ascii") as table:
            for words in (line.split() for line in table if not line.startswith("#")):
                if len(words) == 4 and words[1].isdigit():
                    found[words[0]] = int(words[1])
    except OSError:
        pass
    return found


def minutes(seconds):
    return "less than a minute" if seconds < 60 else "about %d min" % round(seconds / 60)


class Progress:
    """What is told of a run while it goes on."""

    def __init__(self, crates, at_once):
        usual = usual_seconds()
        self.left = {crate: usual.get(crate, USUAL) for crate in crates}
        self.whole = sum(self.left.values())
        self.count, self.at_once, self.started, self.told = len(crates), at_once, time.monotonic(), 0.0

    def tell(self):
        took = time.monotonic() - self.started
        left = sum(self.left.values())
        usual = ALONE + FURTHER * (self.at_once - 1)
        guess = left * (took + SETTLING) / (self.whole - left + usual * SETTLING)
        done = self.count - len(self.left)
        say("%d of %d crates proved after %d s, %s left" % (done, self.count, took, minutes(guess)))
        self.told = time.monotonic()

    def ended(self, crate):
        if self.left.pop(crate, None) is not None:
            self.tell()

    def waited(self):
        if time.monotonic() - self.told > 60:
            self.tell()


class Children:
    """Commands that run, each by the folder in which it does. A signal that ends this run ends them too."""

    def __init__(self):
        self.running = {}
        for it in (signal.SIGINT, signal.SIGTERM, signal.SIGHUP):
            signal.signal(it, self.give_up)

    def give_up(self, *_):
        self.end()
        say("stopped; started again, it goes on from here")
        os._exit(4)

    def start(self, words, folder, log):
        with open(log, "wb") as told:
            self.running[folder] = subprocess.Popen(words, cwd=folder, stdin=subprocess.DEVNULL, stdout=told, stderr=told,
                                                    start_new_session=True)

    def ended(self):
        """The folders of those that have ended since, with their status."""
        found = {folder: child.returncode for folder, child in self.running.items() if child.poll() is not None}
        for folder in found:
            del self.running[folder]
        return found

    def end(self):
        for child in self.running.values():
            os.killpg(child.pid, signal.SIGTERM)


def follow(words, folder, log, progress):
    """Runs a command in the folder, with what it prints in the log, and tells how far all is; its status."""
    children = Children()
    children.start(words, folder, log)
    while True:
        ended = children.ended()
        if ended:
            return ended[folder]
        progress.waited()
        time.sleep(0.5)


def need_kit():
    if shutil.which("rt") is None:
        stop("the program isn't built yet, and the Rattle kit that proves and builds it (command rt) isn't here. "
             "Install the kit, or bring a program that another machine built: ./ecplan --install DIR")


def build_here():
    """Builds the program in this tree, where it was built before: only what changed is proved again. Its bytes."""
    home = os.path.join(TOP, "crates", PROGRAM)
    say("proving what changed, in this tree")
    with tempfile.NamedTemporaryFile(prefix="ecplan-", suffix=".log", delete=False) as log:
        pass
    progress = Progress([PROGRAM], 1)
    follow(["rt", "run"], home, log.name, progress)
    return bytes_at(built_in(home, log.name, progress))


def built_in(home, log, progress):
    """The program that a run built, or the end where it wasn't proved."""
    built = os.path.join(home, "out", PROGRAM)
    with open(log, "rb") as told:
        proved = any(line.startswith(PROVED) for line in told)
    if not proved or not os.access(built, os.X_OK):
        stop(NOT_BUILT + log)
    say("proved and built in %d s" % (time.monotonic() - progress.started))
    return built


def drop(folder):
    """Removes a folder, of a hundred thousand files, without letting anybody wait for it; and what an earlier run left of
    such ones."""
    if os.path.isdir(folder):
        os.rename(folder, "%s-gone-%d" % (folder, os.getpid()))
    at = os.path.dirname(folder)
    gone = [os.path.join(at, it) for it in os.listdir(at) if "-gone-" in it]
    nowhere = {"stdin": subprocess.DEVNULL, "stdout": subprocess.DEVNULL, "stderr": subprocess.DEVNULL}
    subprocess.Popen(["rm", "-rf", *gone], start_new_session=True, **nowhere)


class Order:
    """In which order the crates are proved: one that is ready before the others where more is left to be proved above it."""

    def __init__(self, crates):
        lines, usual = lines_of_crates(), usual_seconds()
        self.below = {crate: set(stands_on(lines, crate)) - {crate} for crate in crates}
        self.left, self.done, self.above = list(crates), set(), {}
        for crate in sorted(crates, key=lambda it: -len(self.below[it])):
            users = (self.above[it] for it in crates if crate in self.below[it])
            self.above[crate] = usual.get(crate, USUAL) + max(users, default=0)

    def ready(self):
        """The crates that can be proved now, the first one first."""
        found = [crate for crate in self.left if self.below[crate] <= self.done]
        return sorted(found, key=lambda crate: -self.above[crate])


def prove(folder, homes, crates, progress):
    """Proves the crates, but for the program, as many at once as there are homes; ends where one isn't proved."""
    order, children, at = Order(crates), Children(), {}
    while order.left or children.running:
        for home in homes:
            ready = order.ready()
            if home in at.values() or not ready:
                continue
            crate = ready[0]
            order.left.remove(crate)
            place = os.path.join(home, "crates", crate)
            at[place] = home
            children.start(["rt", "lib", *ONE_JOB], place, log_of(folder, crate))
        for place, status in children.ended().items():
            crate = os.path.basename(place)
            if status:
                children.end()
                stop(NOT_BUILT + log_of(folder, crate))
            del at[place]
            order.done.add(crate)
            progress.ended(crate)
        progress.waited()
        time.sleep(0.5)


def log_of(folder, crate):
    return os.path.join(folder, "log-of-" + crate)


def build(folder, crates, found):
    """Proves the crates below the folder, and builds the program. Its bytes."""
    homes = [os.path.join(folder, "prover-%d" % number) for number in range(1, 1 + provers())]
    progress = Progress(crates, len(homes))
    say("proving the %d crates that the program stands on; this is done once" % len(crates))
    progress.tell()
    for home in homes:
        make_same(home, found)
    prove(folder, homes, [it for it in crates if it != PROGRAM], progress)
    home = os.path.join(homes[0], "crates", PROGRAM)
    # With no words the program only names the words that it knows, so this run builds it and does no job.
    follow(["rt", "run", *ONE_JOB], home, log_of(folder, PROGRAM), progress)
    return bytes_at(built_in(home, log_of(folder, PROGRAM), progress))


class Tree:
    """The sources of this tree, their hash, and where a program that is built of them is kept, with the line of the kit that
    proved it."""

    def __init__(self):
        lines = lines_of_crates()
        self.crates = stands_on(lines)
        self.found = sources(self.crates, lines)
        self.hash = sum_of(self.found)
        self.began = time.time()
        self.cache = cache_folder()
        self.folder = os.path.join(self.cache, self.hash)
        self.kept, self.kit = os.path.join(self.folder, PROGRAM), os.path.join(self.folder, "kit")
        self.here = os.path.join(TOP, "out", PROGRAM)

    def kept_kit(self):
        """The line of the kit that proved and built the program that is kept, or none where none is."""
        if not os.access(self.kept, os.X_OK) or not os.path.isfile(self.kit):
            return None
        return bytes_at(self.kit).decode("ascii", "replace").strip()

    def release(self):
        """The path of the released program, ready to be started."""
        return released.take(self.hash, (self.here, os.path.join(self.folder, "released", PROGRAM)))

    def keep(self, content):
        """Keeps a program that was built of these sources, unless they changed meanwhile."""
        if hash_of_tree() != self.hash:
            stop("the sources changed while they were proved; started again, it goes on from here")
        write_whole(self.kept, without_symbols(content))
        write_whole(self.kit, kit_line().encode("ascii", "replace"))

    def build(self):
        """Proves and builds the program, and keeps it."""
        need_kit()
        if os.path.isdir(os.path.join(TOP, "crates", PROGRAM, "out")):
            self.keep(build_here())
            # As new as the sources that it was built of, also where these were only touched.
            os.utime(os.path.join(TOP, "crates", PROGRAM, "out", PROGRAM), (self.began, self.began))
            return
        folder = os.path.join(self.cache, "build")
        self.keep(build(folder, self.crates, self.found))
        drop(folder)

    def need_built(self, kit=None):
        """Proves and builds the program, unless one is kept; where a kit's line is given, one that this kit proved."""
        if self.kept_kit() is not None and kit in (None, self.kept_kit()):
            return
        need_kit()
        try:
            os.makedirs(self.cache, exist_ok=True)
            lock = open(os.path.join(self.cache, "lock"), "w", encoding="ascii")
        except OSError as error:
            stop("%s can't be written (%s); set XDG_CACHE_HOME to a folder of yours" % (self.cache, error.strerror))
        with lock:
            try:
                fcntl.flock(lock, fcntl.LOCK_EX | fcntl.LOCK_NB)
            except OSError:
                say("waiting for another run that builds a program")
                fcntl.flock(lock, fcntl.LOCK_EX)
            if self.kept_kit() is None or kit not in (None, self.kept_kit()):
                self.build()

    def built(self):
        """The path of the program that is kept, ready to be started."""
        try:
            return write_whole(self.here, bytes_at(self.kept))
        except OSError:
            return self.kept

    def run_here(self):
        """The path of the program that `rt run` built in this tree, where no source is newer; else none."""
        program = os.path.join(TOP, "crates", PROGRAM, "out", PROGRAM)
        if not os.access(program, os.X_OK):
            return None
        newest = max(os.path.getmtime(os.path.join(TOP, path)) for path in self.found)
        return program if newest <= os.path.getmtime(program) else None
