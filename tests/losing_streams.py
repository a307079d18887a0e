"""The ways to lose a file by what the system does: readers of standard output that go away, full disks, and each call for
files refused, or the run stopped or ended at it, in turn.
"""
import os
import re
import shutil
import signal

import subprocess
import time
from functools import partial

from losing_while import tells_plan
from trials import REFUSED_WRITE, Skipped, has_stopped, shown, state_of

# How long after its start a run's reader goes away, in ms.
GONE_AFTER = (0, 0.5, 1, 1.5, 2, 2.5, 3, 4, 6, 10)
# Bytes of the line that refuses a write.
REFUSED_BYTES = len(REFUSED_WRITE)
CALLS = os.path.join(os.path.dirname(os.path.abspath(__file__)), "calls.c")
UNITS = "units.toml"
# What an edit of the units puts before them.
EDIT = b"# edited\n"
# Calls of which a failure leaves the whole file: under its own name, or the one beside it.
PLACING = ("fsync", "fdatasync", "chmod", "fchmod", "chown", "fchown", "lchown", "rename")


class Writing:
    """A run that writes files: its words, its files by name, its output, and the text that stands where its places go."""

    def __init__(self, output, name, words, files, placed=b""):
        self.output, self.name, self.words, self.files, self.placed = output, name, words, files, placed

    def put(self, trial):
        """Puts what it reads, and older files where it writes."""
        self.output.put(trial)
        for name in self.files:
            trial.put(name, self.output.older if name == "of-run" else self.placed)


def writings_of(outputs):
    """A run for each output, and runs that write a certificate and the places."""
    runs = [Writing(it, it.name, it.line("of-run"), {"of-run": it.whole}) for it in outputs]
    cert, resumed, _capture, _picture, places, *_ = outputs
    for it in (cert, resumed):
        both = {"of-run": it.whole, "placed": places.whole}
        runs.append(Writing(it, f"{it.name} and the places", it.line("of-run", "--places", "placed"), both, places.older))
    return runs


def run_into(trial, writing, out, **means):
    """Runs it with this standard output, over older files."""
    writing.put(trial)
    before = trial.seen()
    return before, trial.run(*writing.words, out=out, **means)


def ends_unread(trial, writing, before, done, why=None):
    """Holds what is left where the text couldn't be written: all files, and of a search what was found on standard error. There
    it has this reason too, and where each file lies; where there is none, as of a reader that is gone, neither."""
    trial.holds(done.code == 4, f"it ended with status {done.code}")
    if writing.output.words[0] in ("plan", "resume"):
        tells_plan(trial, done, writing.output)
    if why:
        trial.tells(done, f"The text cannot be written to standard output: {why}.\n", *(f' at "{name}".\n' for name in writing.files))
    else:
        is_told = any(it in done.said for it in ("standard output", ' lies at "', ' lie at "'))
        trial.holds(not is_told, f"standard error says {done.said[:300]!r}")
    trial.left(before, writing.files)


def try_gone_before(writing, trial):
    reader, writer = os.pipe()
    os.close(reader)
    before, done = run_into(trial, writing, writer)
    os.close(writer)
    ends_unread(trial, writing, before, done)


def try_full(writing, trial):
    with open("/dev/full", "wb") as full:
        before, done = run_into(trial, writing, full)
    ends_unread(trial, writing, before, done, "No space left on device (os error 28)")


def try_closed(writing, trial):
    before, done = run_into(trial, writing, subprocess.DEVNULL, before=("sh", "-c", 'exec "$@" >&-', "sh"))
    ends_unread(trial, writing, before, done, "it is closed, or opened for reading alone")


def gone_in_between(trial, writing, wait):
    """Runs it with a reader that goes away once it has waited."""
    writing.put(trial)
    before = trial.seen()
    reader, writer = os.pipe()
    child = trial.start(*writing.words, out=writer)
    os.close(writer)
    wait(reader)
    os.close(reader)
    done = trial.end(child)
    if done.code == writing.output.code:
        trial.left(before, writing.files)
    else:
        ends_unread(trial, writing, before, done)


def try_gone_after_a_byte(writing, trial):
    gone_in_between(trial, writing, lambda reader: os.read(reader, 1))


def try_gone_after(writing, trial):
    for wait in GONE_AFTER:
        gone_in_between(trial, writing, lambda reader, wait=wait: time.sleep(wait / 1000))


def readers(outputs):
    """Standard output that can't be written, or not to its end."""
    for it in writings_of(outputs):
        yield f"{it.name}: the reader of the text is gone", partial(try_gone_before, it)
        yield f"{it.name}: the reader of the text goes after a byte", partial(try_gone_after_a_byte, it)
        yield f"{it.name}: the reader of the text goes after some time", partial(try_gone_after, it)
        yield f"{it.name}: the disk of the text is full", partial(try_full, it)
        yield f"{it.name}: standard output is closed", partial(try_closed, it)


def try_too_large(output, trial):
    """The file gets larger than a file may get: it isn't written, and nothing of it is left."""
    output.put(trial)
    trial.put("of-run", output.older)
    before = trial.seen()
    done = trial.run(*output.line("of-run"), most_bytes=len(output.whole) // 2)
    output.ends_unwritten(trial, done)
    trial.tells(done, "of-run")
    trial.left(before)


def try_signalled(output, trial):
    """The same where the system's signal ends the run: the older file stands."""
    output.put(trial)
    trial.put("of-run", output.older)
    before = trial.seen()
    done = trial.run(*output.line("of-run"), most_bytes=len(output.whole) // 2, is_signalled=True)
    trial.holds(done.code in (4, -signal.SIGXFSZ), f"it ended with status {done.code}")
    trial.left(before, free=["of-run.part"])


def try_one_disk(output, trial):
    """The text has room for so many bytes of its refusal, and the file for none: the older file stands."""
    most = len(output.whole) // 2
    for room in range(REFUSED_BYTES + 1):
        output.put(trial)
        trial.put("of-run", output.older)
        trial.put("text", bytes(most - room))
        before = trial.seen()
        with open(trial.at("text"), "ab") as text:
            done = trial.run(*output.line("of-run"), most_bytes=most, out=text)
        trial.holds(done.code == 4, f"with room for {room} bytes it ended with status {done.code}")
        trial.left(before, free=["text"])


def in_own_mounts(trial):
    """The words that run a script in which file systems can be mounted."""
    os.makedirs(trial.at("disk"), exist_ok=True)
    for words in (["unshare", "-m"], ["unshare", "-rm"]):
        script = "mount -t tmpfs -o size=64k none disk"
        if shutil.which("unshare") and subprocess.run([*words, "sh", "-c", script], cwd=trial.folder, check=False,
                                                      stderr=subprocess.DEVNULL).returncode == 0:
            return words
    raise Skipped("nothing can be mounted here")


# A disk of 64 KiB with the older file; the text goes to it too, behind so many bytes. What is left there is kept.
FULL_DISK = """
set -e
mount -t tmpfs -o size=64k none disk
cp -p of-run disk/of-run
head -c "$1" /dev/zero > disk/text
shift
set +e
"$@" >> disk/text
code=$?
cp -p disk/* kept/
exit $code
"""


def try_full_disk(output, trial):
    """A full disk with the older file and the text: the older file stands, and nothing else."""
    before = (*in_own_mounts(trial), "sh", "-c", FULL_DISK, "sh")
    output.put(trial)
    trial.put("of-run", output.older)
    for room in range(REFUSED_BYTES + 1):
        os.makedirs(trial.at("kept"))
        done = trial.run(*output.line("disk/of-run"), before=(*before, str(4096 - room)))
        trial.holds(done.code == 4, f"with room for {room} bytes it ended with status {done.code}")
        trial.holds(sorted(os.listdir(trial.at("kept"))) == ["of-run", "text"], f"left is {os.listdir(trial.at('kept'))}")
        trial.holds(state_of(trial.at("kept/of-run")) == state_of(trial.at("of-run")), "the older file isn't as it was")
        shutil.rmtree(trial.at("kept"))


def try_mounted(output, trial):
    """A file that can't be renamed, since another one is mounted on its path."""
    before = (*in_own_mounts(trial), "sh", "-c", 'mount --bind mounted of-run && exec "$@"', "sh")
    output.put(trial)
    trial.put("of-run", output.older)
    trial.put("mounted", output.older)
    due = trial.seen()
    done = trial.run(*output.line("of-run"), before=before)
    output.ends_unwritten(trial, done)
    trial.tells(done, "of-run.part")
    trial.left(due, {"of-run.part": output.whole})


def disks(outputs, large):
    """Disks that are full, and what can't be renamed."""
    for output in (*outputs, large):
        yield f"{output.name}: it gets larger than a file may", partial(try_too_large, output)
        yield f"{output.name}: it gets larger than a file may, and the signal comes", partial(try_signalled, output)
        yield f"{output.name}: a file is mounted on its path", partial(try_mounted, output)
    for output in (*outputs[:3], large):
        yield f"{output.name} and the text on one full disk", partial(try_one_disk, output)
    yield f"{large.name} and the text on one small disk", partial(try_full_disk, large)


class Calls:
    """Runs of one output in which something is done at a call for files; of the older file the mode is told, where it is
    another one than the system gives."""

    def __init__(self, library, output, path, trial, mode=None):
        self.library, self.output, self.path, self.trial, self.mode = library, output, path, trial, mode
        self.notes = os.path.join(os.path.dirname(library), "notes")

    def begin(self):
        """Empties the folder, and puts what a run reads and an older file; what stands then."""
        for name in os.listdir(self.trial.folder):
            os.remove(self.trial.at(name))
        self.output.put(self.trial)
        if self.path != UNITS:
            self.trial.put(self.path, self.output.older, self.mode)
        return self.trial.seen()

    def env(self, number, what):
        if os.path.exists(self.notes):
            os.remove(self.notes)
        return dict(os.environ, LD_PRELOAD=self.library, CALL=str(number), CALL_WHAT=what, CALL_NOTES=self.notes)

    def noted(self):
        """The calls of the last run: the name and the path of each."""
        with open(self.notes, encoding="utf-8", errors="replace") as notes:
            return [tuple(line.rstrip("\n").split(" ", 1)) for line in notes]

    def run(self, number, what):
        return self.trial.run(*self.output.line(self.path), env=self.env(number, what))

    def is_of_run(self, name):
        return re.fullmatch(re.escape(self.path) + r"\.part\d*", name) is not None

    def rest_stays(self, before, number):
        """Holds that the path has the older file or the whole one, and all else stands; the path's bytes, and the names of
        the run's own files."""
        after = self.trial.seen()
        found = after.get(self.path)
        is_whole = found is not None and found.holds in (before[self.path].holds, self.output.whole, self.output.rival.whole)
        is_right = is_whole and found[:4] == before[self.path][:4]
        why = f"at call {number}: at its path stands {shown(found)}, neither the older file nor a whole one"
        self.trial.holds(is_right, why)
        for name in {*before, *after} - {self.path}:
            if not (name not in before and self.is_of_run(name)):
                self.trial.holds(after.get(name) == before.get(name), f"at call {number}: {name} isn't as it was")
        return found and found.holds, [name for name in after if name not in before and self.is_of_run(name)]


def each_call(calls, what):
    """Numbers of calls, each with what stands before its run, until a run has fewer of them."""
    calls.begin()
    calls.run(0, what)
    for number in range(1, len(calls.noted()) + 1):
        yield number, calls.begin()


def try_failing(library, output, path, trial):
    """Each call for files fails in turn: the path has the older file or the whole one, the status says which, and a whole
    file that can't take its place lies beside it and is named."""
    calls = Calls(library, output, path, trial, 0o640)
    for number, before in each_call(calls, "f"):
        done = calls.run(number, "f")
        failed = calls.noted()[number - 1][0] if number <= len(calls.noted()) else ""
        found, beside = calls.rest_stays(before, number)
        is_written = found == output.whole
        trial.holds(is_written or done.code in (3, 4), f"at call {number}, {failed}: status {done.code} and no file")
        for name in beside:
            is_named = trial.get(name) == output.whole and name in done.said
            is_right = is_named or failed == "unlink"
            trial.holds(is_right, f"at call {number}, {failed}: {name} is left, and not whole and named")
        has_written = any(name == "write" for name, _ in calls.noted()[: number - 1])
        if failed in PLACING and has_written:
            trial.holds(done.code == 4, f"at call {number}, {failed}: status {done.code}")
            trial.holds(is_written or beside, f"at call {number}, {failed}: the whole file is gone")


def try_killed(library, output, path, trial):
    """A run that is killed at each call for files in turn."""
    calls = Calls(library, output, path, trial)
    for number, before in each_call(calls, "k"):
        calls.run(number, "k")
        calls.rest_stays(before, number)


def try_overtaken(library, output, path, trial):
    """A run that stops at each call for files in turn, while another run with the same path goes to its end."""
    calls = Calls(library, output, path, trial)
    rival = output.rival
    for number, before in each_call(calls, "s"):
        child = trial.start(*output.line(path), env=calls.env(number, "s"))
        is_stopped = has_stopped(child)
        is_first = trial.get(path) == output.whole != rival.whole
        other = trial.run(*rival.line(path))
        rival.ends_or_stays_beside(trial, other, path)
        stands = output.whole if is_first else rival.whole
        trial.holds(trial.get(path) == stands, f"at call {number}: at its path stands what says less, or a part")
        if is_stopped:
            child.send_signal(signal.SIGCONT)
        done = trial.end(child)
        found, beside = calls.rest_stays(before, number)
        is_left = path == UNITS and done.code == 4
        trial.holds(done.code == output.code or is_left, f"at call {number}: it ended with status {done.code}")
        trial.holds(found in (output.whole, rival.whole) and not beside, f"at call {number}: left beside are {beside}")


def try_beaten(library, output, path, trial):
    """A search that ends without a proof, stopped at each call for files in turn, while another run puts a proof at its path: the
    proof stays. Only where the search stops in the very call that renames its file the proof comes too late."""
    calls = Calls(library, output.rival, path, trial)
    for number, _ in each_call(calls, "s"):
        child = trial.start(*output.rival.line(path), env=calls.env(number, "s"))
        is_stopped = has_stopped(child)
        stopped_in = calls.noted()[number - 1][0] if is_stopped else ""
        other = trial.run(*output.line(path))
        trial.holds(other.code == output.code, f"at call {number}: the proof ended with status {other.code}")
        if is_stopped:
            child.send_signal(signal.SIGCONT)
        trial.end(child)
        is_right = trial.get(path) == output.whole or stopped_in == "rename"
        trial.holds(is_right, f"at call {number}, {stopped_in}: at its path stands what says less than the proof")


def try_saved(library, output, path, trial):
    """The units' own file, edited while a run with `--places` stands at each call for files in turn: the edit stays. Only where the run
    stops in the very call that renames its file the edit comes too late."""
    calls = Calls(library, output, path, trial)
    for number, _ in each_call(calls, "s"):
        child = trial.start(*output.line(path), env=calls.env(number, "s"))
        is_stopped = has_stopped(child)
        stopped_in = calls.noted()[number - 1][0] if is_stopped else ""
        trial.put(path, EDIT + trial.get(path))
        if is_stopped:
            child.send_signal(signal.SIGCONT)
        trial.end(child)
        is_there = trial.get(path).startswith(EDIT)
        trial.holds(is_there or stopped_in == "rename", f"at call {number}, {stopped_in}: an edit of the units is lost")


def try_taken(library, output, path, trial):
    """A run that stops at each call for files in turn, while another program puts a file of its own at the name of the run's: that one
    stays there. Only where the run stops in the very call that removes its file, or in the last one before that which renames it, it comes
    too late."""
    calls = Calls(library, output, path, trial)
    for number, _ in each_call(calls, "s"):
        child = trial.start(*output.line(path), env=calls.env(number, "s"))
        is_stopped = has_stopped(child)
        stopped_in = calls.noted()[number - 1][0] if is_stopped else ""
        taken = [name for name in trial.seen() if calls.is_of_run(name)] if is_stopped else []
        for name in taken:
            trial.put("new", EDIT)
            os.replace(trial.at("new"), trial.at(name))
        if is_stopped:
            child.send_signal(signal.SIGCONT)
        trial.end(child)
        is_late = stopped_in in ("rename", "unlink") or any(name == "rename" for name, _ in calls.noted()[number : number + 1])
        for name in taken:
            stays = trial.get(name) == EDIT or is_late
            trial.holds(stays, f"at call {number}, {stopped_in}: what another program put at {name} is gone")


def try_making_room(library, output, path, trial):
    """Each call for files fails in turn, or the run is killed there, where a proof makes room: it stands at its path, or lies beside it."""
    calls = Calls(library, output, path, trial)
    for what in ("f", "k"):
        for number, _ in each_call(calls, what):
            trial.put(path + ".old", EDIT)
            calls.run(number, what)
            found, old = trial.get(path), trial.get(path + ".old2")
            trial.holds(output.older in (found, old), f"at call {number}, {what}: what made room is gone")
            trial.holds(found in (output.older, output.whole), f"at call {number}, {what}: at its path stands neither")
            trial.holds(trial.get(path + ".old") == EDIT, f"at call {number}, {what}: what stood at PATH.old is gone")
    calls.begin()
    trial.holds(calls.run(0, "f").code == output.code, "it ended otherwise than undisturbed")
    trial.holds((trial.get(path), trial.get(path + ".old")) == (output.whole, output.older), "it doesn't lie at PATH.old")


def try_synced(library, output, path, trial):
    """The file is on the disk before it takes its place, and its folder after it."""
    calls = Calls(library, output, path, trial)
    calls.begin()
    trial.holds(calls.run(0, "f").code == output.code, "it ended otherwise than undisturbed")
    noted = [(name, os.path.basename(of)) for name, of in calls.noted()]
    part, folder = path + ".part", os.path.basename(trial.folder)
    renamed = [at for at, call in enumerate(noted) if call == ("rename", part)]
    trial.holds(len(renamed) == 1, f"{part} is renamed {len(renamed)} times")
    if len(renamed) == 1:
        before, after = noted[: renamed[0]], noted[renamed[0] + 1:]
        wrote = max((at for at, call in enumerate(before) if call == ("write", part)), default=-1)
        trial.holds(("fsync", part) in before[wrote + 1:], "the file isn't on the disk before it takes its place")
        trial.holds(("fsync", folder) in after, "its folder isn't on the disk after that")


def library_of_calls(folder):
    """The path of the built `calls.c`; none where it can't be built."""
    made = os.path.join(folder, "calls.so")
    for compiler in (os.environ.get("CC", "cc"), "gcc", "clang"):
        words = [compiler, "-O2", "-shared", "-fPIC", "-o", made, CALLS, "-ldl"]
        if shutil.which(compiler) and subprocess.run(words, stderr=subprocess.DEVNULL, check=False).returncode == 0:
            return made
    return None


def skip_no_compiler(_trial):
    raise Skipped("there is no C compiler that builds tests/calls.c")


def calls(outputs, roomy, library):
    """Each call for files, in turn."""
    kinds = ((try_failing, "each call for files fails in turn"), (try_killed, "it is killed at each call for files in turn"),
             (try_overtaken, "at each call for files another run overtakes it"),
             (try_taken, "at each call for files another program takes the name of its file"),
             (try_synced, "it is on the disk when it takes its place"))
    cases = [(it, "of-run", it.name) for it in outputs] + [(outputs[4], UNITS, "the places in the units' own file")]
    for output, path, name in cases:
        for tries, what in kinds:
            way = partial(tries, library, output, path) if library else skip_no_compiler
            yield f"{name}: {what}", way
    overtaken = ((try_making_room, roomy, "of-run", f"{roomy.name}: each call for files fails, or it is killed there"),
                 (try_beaten, outputs[0], "of-run", "a search without a proof: at each call for files a proof is put there"),
                 (try_saved, outputs[4], UNITS, "the places in the units' own file: it is edited at each call for files"))
    for tries, output, path, what in overtaken:
        yield what, partial(tries, library, output, path) if library else skip_no_compiler
