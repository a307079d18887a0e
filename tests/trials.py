"""A folder in which a way to lose a file is tried, and the files that runs write there.

A way is a function of a `Trial`. It puts files, runs the program in the folder, and notes with `holds`, `left` and `ends`
what isn't as it has to be. A way that notes anything has lost something. What can't be tried here raises `Skipped`.
"""
import collections
import os
import re
import resource
import shutil
import signal
import stat
import subprocess
import time

import finding
from lines import FIXED, text_of

# Seconds after which a run hangs.
MOST_SECONDS = 20
# A user who is nobody, and another owner of files.
NOBODY, OTHER_USER, OTHER_GROUP = 65534, 1234, 5678
# A line with few nodes a second.
SLOW = FIXED[11][1]
# Clock ticks of the processor after which a search has begun: its units are few and read in less than one.
BEGUN_TICKS = 3
REFUSED_WRITE = "refused E4 Write\n"

Done = collections.namedtuple("Done", "code text said")
# What stands at a name: `kind` as the system has it, a file's bytes or a link's path as `holds`.
State = collections.namedtuple("State", "kind mode user group holds")


class Skipped(Exception):
    """A way that can't be tried here, and why."""


class TooLate(Skipped):
    """A way whose search was stopped too late, or had ended: it can be tried again."""


def state_of(path):
    """What stands at a path."""
    found = os.lstat(path)
    kind, holds = stat.S_IFMT(found.st_mode), None
    if kind == stat.S_IFREG:
        with open(path, "rb") as file:
            holds = file.read()
    if kind == stat.S_IFLNK:
        holds = os.readlink(path)
    return State(kind, stat.S_IMODE(found.st_mode), found.st_uid, found.st_gid, holds)


def shown(state):
    """What stands at a name, in words."""
    if state is None:
        return "nothing"
    if state.kind == stat.S_IFREG:
        return f"a file of {len(state.holds)} bytes, mode {state.mode:o}, owner {state.user}:{state.group}"
    names = {stat.S_IFLNK: f"a link to {state.holds}", stat.S_IFDIR: "a folder", stat.S_IFIFO: "a pipe"}
    return names.get(state.kind, "something else")


class Trial:
    """A folder in which a way is tried, and what was lost there."""

    def __init__(self, program, folder):
        self.program = program
        self.folder = folder
        self.wrong = []

    def at(self, name):
        return os.path.join(self.folder, name)

    def put(self, name, text, mode=None):
        """A file with these bytes."""
        with open(self.at(name), "wb") as file:
            file.write(text)
        if mode is not None:
            os.chmod(self.at(name), mode)

    def get(self, name):
        """The bytes of a file; none where there is no file."""
        if not os.path.isfile(self.at(name)):
            return None
        with open(self.at(name), "rb") as file:
            return file.read()

    def holds(self, is_right, why):
        """Notes what is wrong where it isn't right."""
        if not is_right:
            self.wrong.append(why)

    def seen(self):
        """What stands in the folder, by name."""
        found = {}
        for top, folders, files in os.walk(self.folder):
            for name in folders + files:
                path = os.path.join(top, name)
                found[os.path.relpath(path, self.folder)] = state_of(path)
        return found

    def left(self, before, written=None, free=()):
        """Holds that all stands as before, with modes and owners, but for the bytes of what was `written`, and what
        stands at the names that are `free`."""
        written, after = written or {}, self.seen()
        for name in sorted({*before, *after, *written} - set(free)):
            due, got = before.get(name), after.get(name)
            if name in written:
                is_file = got is not None and got.kind == stat.S_IFREG
                is_right = is_file and got.holds == written[name] and (due is None or got[:4] == due[:4])
                of = f", mode {due.mode:o}, owner {due.user}:{due.group}" if due else ""
                due_words = f"the {len(written[name])} bytes that were to be written{of}"
            else:
                is_right, due_words = got == due, shown(due)
            of_others = ", with other bytes" if is_right is False and shown(got) == due_words else ""
            self.holds(is_right, f"at {name} stands {shown(got)}{of_others}, and not {due_words}")

    def ends(self, done, code, text):
        """Holds that a run ended with this status and this text."""
        got = (done.code, done.text)
        self.holds(got == (code, text), f"it ended with {code_and_line(*got)}, and not with {code_and_line(code, text)}")

    def tells(self, done, *words):
        """Holds that standard error has each of these."""
        for word in words:
            self.holds(word in done.said, f"standard error doesn't say {word!r}: {done.said[:300]!r}")

    def start(self, *words, stdin=subprocess.DEVNULL, out=subprocess.PIPE, most_bytes=None, is_signalled=False, env=None,
              umask=None, user=None, before=()):
        """Starts the program in the folder, behind the words `before`. A file takes `most_bytes`: beyond that a write fails,
        or where it `is_signalled` the system's signal ends the program."""
        def prepare():
            if umask is not None:
                os.umask(umask)
            if most_bytes is not None:
                if not is_signalled:
                    signal.signal(signal.SIGXFSZ, signal.SIG_IGN)
                resource.setrlimit(resource.RLIMIT_FSIZE, (most_bytes, most_bytes))

        line = [*before, self.program, *words]
        own = {} if user is None else {"user": user, "group": user, "extra_groups": []}
        is_prepared = most_bytes is not None or umask is not None
        return subprocess.Popen(line, cwd=self.folder, stdin=stdin, stdout=out, stderr=subprocess.PIPE, env=env,
                                preexec_fn=prepare if is_prepared else None, **own)

    def end(self, child):
        """Waits for a run that was started, and ends one that hangs."""
        try:
            text, said = child.communicate(timeout=MOST_SECONDS)
        except subprocess.TimeoutExpired:
            child.kill()
            text, said = child.communicate()
            self.holds(False, f"it hangs: after {MOST_SECONDS} s it had not ended")
        return Done(child.returncode, (text or b"").decode("ascii", "replace"), said.decode("ascii", "replace"))

    def run(self, *words, **means):
        """Runs the program in the folder, to its end."""
        return self.end(self.start(*words, **means))

    def run_as_nobody(self, *words):
        """Runs it as a user whom the modes of files bind."""
        if os.getuid() != 0:
            return self.run(*words)
        if subprocess.run([self.program, "--version"], cwd=self.folder, user=NOBODY, group=NOBODY, check=False,
                          stdout=subprocess.DEVNULL, stderr=subprocess.DEVNULL).returncode not in (0, 5):
            raise Skipped("another user can't run the program here")
        return self.run(*words, user=NOBODY)


def code_and_line(code, text):
    return f"status {code} and {text.split(chr(10))[0] or 'nothing'!r}"


def processor_seconds():
    """The seconds of the processor that the runs so far have taken."""
    taken = resource.getrusage(resource.RUSAGE_CHILDREN)
    return taken.ru_utime + taken.ru_stime


def ticks_of(child):
    """The clock ticks of the processor that a program has taken; none where it has ended."""
    try:
        with open(f"/proc/{child.pid}/stat", encoding="ascii", errors="replace") as file:
            fields = file.read().rpartition(")")[2].split()
    except OSError:
        return None
    return None if fields[0] in "ZX" else int(fields[11]) + int(fields[12])


def stop_once_begun(child, most_ticks):
    """Stops a run whose search has begun, and has taken no more than so many clock ticks."""
    while True:
        ticks = ticks_of(child)
        if ticks is None:
            raise TooLate("the search had ended before it was stopped")
        if BEGUN_TICKS <= ticks:
            child.send_signal(signal.SIGSTOP)
            if (ticks_of(child) or most_ticks + 1) <= most_ticks:
                return
            raise TooLate("the search was stopped too late")
        time.sleep(0.001)


def has_stopped(child):
    """Waits until a run stops itself or ends; whether it has stopped."""
    _, status = os.waitpid(child.pid, os.WUNTRACED)
    if os.WIFSTOPPED(status):
        return True
    child.returncode = os.waitstatus_to_exitcode(status)
    return False


class Output:
    """A file that a job writes: the words of the job, the option of its path, and its units. `older` is another file of
    the kind. What an undisturbed run leaves: the file `whole`, its text and its status."""

    def __init__(self, name, words, option, units, older, given=None):
        self.name, self.words, self.option, self.units, self.older, self.given = name, words, option, units, older, given
        self.whole, self.text, self.code, self.ticks = None, None, None, 0
        self.rival = self

    def line(self, path, *more):
        """The words of a run that writes it to a path."""
        return [*self.words, self.option, path, *more, "units.toml"]

    def put(self, trial):
        """The files that the job reads."""
        trial.put("units.toml", self.units)
        if self.given is not None:
            trial.put("given.cert", self.given)

    def run_undisturbed(self, trial):
        """Finds what an undisturbed run leaves."""
        self.put(trial)
        before = processor_seconds()
        done = trial.run(*self.line("made"))
        self.whole, self.text, self.code = trial.get("made"), done.text, done.code
        self.ticks = int((processor_seconds() - before) * os.sysconf("SC_CLK_TCK"))
        os.remove(trial.at("made"))
        return self

    def ends_or_stays_beside(self, trial, done, path):
        """Holds that a run ended as alone; or, where a certificate that says more stood at its path, beside that, whole. The
        names under which it lies then are free again."""
        name = re.search(rf'lies at "({re.escape(path)}\.part\d*)"', done.said)
        if done.code != 4 or name is None or trial.get(path) == self.whole:
            trial.ends(done, self.code, self.text)
            return
        trial.ends(done, 4, REFUSED_WRITE)
        trial.tells(done, "the same units", self.text.split("\n")[0])
        trial.holds(trial.get(name[1]) == self.whole, f"at {name[1]} isn't the whole file")
        os.remove(trial.at(name[1]))

    def ends_unwritten(self, trial, done):
        """Holds that a run ended as one whose file can't be written."""
        is_kept = self.option in ("--out", "--pcap")
        trial.ends(done, 4, REFUSED_WRITE if is_kept else self.text)


def example(name):
    with open(os.path.join(finding.EXAMPLES, name), "rb") as file:
        return file.read()


def older_places(trial, units):
    """The units with the places of a dearer plan: each goes in the first tick."""
    placed = Output("", ["plan", "--nodes", "1"], "--places", units, b"").run_undisturbed(trial).whole
    return re.sub(rb"(?m)^phase = \d+", b"phase = 0", placed)


def of_other_units(program, folder):
    """A certificate without a proof over a proof of other units of the same line, which makes room for it."""
    trial, units = Trial(program, folder), example("twelve-units.toml")
    other = re.sub(rb"out_bytes = (\d+)", lambda found: b"out_bytes = %d" % (int(found[1]) + 1), units, count=1)
    older = Output("", ["plan"], "--out", other, b"").run_undisturbed(trial).whole
    return Output("a certificate over a proof of other units", ["plan", "--nodes", "45"], "--out", units, older).run_undisturbed(trial)


def outputs_of(program, folder):
    """The files that jobs write, on small lines."""
    trial = Trial(program, folder)
    twelve, line, other = (example(it) for it in ("twelve-units.toml", "packaging-line.toml", "two-units-apart.toml"))

    def made(words, option, units, older=b"", given=None):
        return Output("", words, option, units, older, given).run_undisturbed(trial)

    shorter = made(["plan", "--nodes", "30"], "--out", twelve)
    older = shorter.whole
    short = made(["plan", "--nodes", "45"], "--out", twelve, older)
    resumed = ["resume", "--cert", "given.cert"]
    outputs = [
        Output("a certificate", ["plan"], "--out", twelve, older),
        Output("a certificate of a search that went on", resumed, "--out", twelve, older, short.whole),
        Output("a capture", ["frames"], "--pcap", line, made(["frames"], "--pcap", other).whole),
        Output("a picture", ["cost"], "--svg", line, made(["cost"], "--svg", other).whole),
        Output("the places", ["plan"], "--places", twelve, older_places(trial, twelve)),
        Output("a header", ["frames"], "--header", line, made(["frames"], "--header", other).whole),
        Output("a map", ["frames"], "--map", line, made(["frames"], "--map", other).whole),
        Output("a report", ["frames"], "--report", line, made(["frames"], "--report", other).whole),
        Output("a capture of a play", ["play"], "--pcap", line, made(["play"], "--pcap", other).whole),
    ]
    outputs[0].rival = outputs[1].rival = short
    outputs[0].fewer = shorter
    return [it.run_undisturbed(trial) for it in outputs]


def searches_of(program, folder):
    """The same of a search that takes some tenths of a second: its certificate, and the places."""
    trial = Trial(program, folder)
    units, words = text_of(SLOW).encode("ascii"), ["plan", "--nodes", "200000"]
    older = Output("", ["plan", "--nodes", "100"], "--out", units, b"").run_undisturbed(trial).whole
    outputs = [
        Output("the certificate of a search", words, "--out", units, older),
        Output("the places of a search", words, "--places", units, older_places(trial, units)),
    ]
    return [it.run_undisturbed(trial) for it in outputs]


def large_of(program, folder):
    """A certificate of some 100,000 bytes."""
    trial = Trial(program, folder)
    units = text_of(SLOW).encode("ascii")
    older = Output("", ["plan", "--nodes", "100"], "--out", units, b"").run_undisturbed(trial).whole
    return Output("a larger certificate", ["plan", "--nodes", "20000"], "--out", units, older).run_undisturbed(trial)


def own_copy(program, folder):
    """A copy of the program that every user can run."""
    path = os.path.join(folder, "ecplan")
    shutil.copyfile(program, path)
    os.chmod(path, 0o755)
    return path
