"""The ways to lose a file while a run is at work: its files are changed, its path becomes something else, another run has
the same path, or its path can't be written and a long search is begun all the same.

The functions that take searches give ways in which a search is stopped some time after its begin, then gone on with.
"""
import contextlib
import os
import signal
from functools import partial

from losing import NOTES, UNWRITABLE, put_all_paths
from trials import NOBODY, REFUSED_WRITE, Done, Output, Skipped, example, stop_once_begun

NOTE = b"# a note of mine\n"
# How often two runs are started at one time.
ROUNDS = 12
# The same of two that take no longer than their start.
PAIRS = 150


@contextlib.contextmanager
def search_begun(trial, output, *words, **means):
    """The search of an output, begun and stopped."""
    child = trial.start(*words, **means)
    try:
        stop_once_begun(child, output.ticks // 2)
        yield child
    finally:
        if child.returncode is None:
            child.kill()
            child.communicate()


def go_on(trial, child):
    """Goes on with a search that is stopped, to its end."""
    child.send_signal(signal.SIGCONT)
    return trial.end(child)


def said_so_far(child):
    """What a search that is stopped has written on standard error."""
    os.set_blocking(child.stderr.fileno(), False)
    try:
        said = os.read(child.stderr.fileno(), 1 << 16)
    except BlockingIOError:
        said = b""
    os.set_blocking(child.stderr.fileno(), True)
    return said.decode("ascii", "replace")


def tells_plan(trial, done, output):
    """Holds that standard error has the lines that standard output would have had."""
    trial.tells(done, *output.text.rstrip("\n").split("\n"))


def change(trial, before, put, *names):
    """Changes what stands at these names, and what is due there."""
    put(trial)
    after = trial.seen()
    for name in names:
        before.pop(name, None)
        if name in after:
            before[name] = after[name]


def replace_by_edited(trial, name, text):
    """What an editor does that writes another file and gives it the name."""
    trial.put("new", text)
    os.replace(trial.at("new"), trial.at(name))


def put_pipe(trial, name):
    os.remove(trial.at(name))
    os.mkfifo(trial.at(name))


UNITS = "units.toml"
# What is done with the units' own file while `--places` searches.
EDITS = {
    "edited": lambda trial, units: trial.put(UNITS, units + NOTE),
    "edited by another file that takes its name": lambda trial, units: replace_by_edited(trial, UNITS, units + NOTE),
    "cut off": lambda trial, units: trial.put(UNITS, units[:-40]),
    "emptied": lambda trial, units: trial.put(UNITS, b""),
    "taken away": lambda trial, units: os.remove(trial.at(UNITS)),
    "written over with something else": lambda trial, units: trial.put(UNITS, NOTES),
    "replaced by a pipe": lambda trial, units: put_pipe(trial, UNITS),
}


def try_edited(output, edit, path, units, trial):
    """The units' own file is changed while the places of its units are searched: it is left, and the plan is told."""
    output.put(trial)
    os.symlink(UNITS, trial.at("link"))
    before = trial.seen()
    words = [*output.words, "--places", path, *units]
    with open(trial.at(UNITS), "rb") as stdin, search_begun(trial, output, *words, stdin=stdin) as child:
        change(trial, before, lambda it: edit(it, output.units), UNITS)
        done = go_on(trial, child)
    trial.ends(done, 4, output.text)
    trial.tells(done, path)
    trial.left(before)


def try_touched(output, trial):
    """The units' own file is written again as it was: it is no other file, and the places are written."""
    output.put(trial)
    before = trial.seen()
    with search_begun(trial, output, *output.words, "--places", UNITS, UNITS) as child:
        trial.put(UNITS, output.units)
        done = go_on(trial, child)
    trial.ends(done, output.code, output.text)
    trial.left(before, {UNITS: output.whole})


def edits(searches):
    """The units' own file, changed while `--places` searches."""
    places = searches[1]
    for how, edit in EDITS.items():
        yield f"the units' own file, {how} during the search", partial(try_edited, places, edit, UNITS, [UNITS])
    for path, units, how in (("./" + UNITS, [UNITS], "as ./"), ("link", [UNITS], "by a link"),
                             (UNITS, ["link"], "read by a link"), (UNITS, [], "read from standard input")):
        yield (f"the units' own file, {how}, edited during the search",
               partial(try_edited, places, EDITS["edited"], path, units))
    yield "the units' own file, written again as it was", partial(try_touched, places)


def put_a_folder(trial):
    with contextlib.suppress(FileNotFoundError):
        os.remove(trial.at("of-run"))
    os.mkdir(trial.at("of-run"))


# What a path becomes during the search.
BECOMES = {"something else": lambda trial: trial.put("of-run", NOTES), "a folder": put_a_folder}


def try_becomes(output, put, is_older, trial):
    """A path becomes something else: that is left, and the whole file lies beside it. Over a folder no places are made, since
    the text has them."""
    is_made = output.option != "--places" or put is not put_a_folder
    output.put(trial)
    if is_older:
        trial.put("of-run", output.older)
    before = trial.seen()
    with search_begun(trial, output, *output.line("of-run")) as child:
        change(trial, before, put, "of-run")
        done = go_on(trial, child)
    output.ends_unwritten(trial, done)
    trial.tells(done, "of-run.part" if is_made else "of-run")
    if output.option == "--out":
        tells_plan(trial, done, output)
    trial.left(before, {"of-run.part": output.whole} if is_made else {})


def put_link_to_notes(trial):
    trial.put("notes", NOTES)
    os.symlink("notes", trial.at("of-run"))


def try_becomes_link(output, trial):
    """A path becomes a link to something else: both are left, and the whole file lies beside one of them."""
    output.put(trial)
    before = trial.seen()
    with search_begun(trial, output, *output.line("of-run")) as child:
        change(trial, before, put_link_to_notes, "of-run", "notes")
        done = go_on(trial, child)
    output.ends_unwritten(trial, done)
    beside = [name for name in ("of-run.part", "notes.part") if trial.get(name) == output.whole]
    trial.holds(len(beside) == 1, f"the whole file lies in {beside}")
    trial.tells(done, *beside)
    trial.left(before, {name: output.whole for name in beside})


def try_taken_away(output, put, trial):
    """The older file at a path is taken away, or is another one of the kind by now: the new one is put there."""
    output.put(trial)
    trial.put("of-run", output.older)
    before = trial.seen()
    with search_begun(trial, output, *output.line("of-run")) as child:
        change(trial, before, put, "of-run")
        done = go_on(trial, child)
    trial.ends(done, output.code, output.text)
    trial.left(before, {"of-run": output.whole})


def try_part_taken(output, put, trial):
    """The name beside a path is taken during the search: what stands there stays."""
    output.put(trial)
    trial.put("of-run", output.older)
    before = trial.seen()
    with search_begun(trial, output, *output.line("of-run")) as child:
        change(trial, before, put, "of-run.part")
        done = go_on(trial, child)
    trial.ends(done, output.code, output.text)
    trial.left(before, {"of-run": output.whole})


def try_folder_gone(output, trial):
    """The folder of a path gets another name: nothing can be written, and what was found is told."""
    output.put(trial)
    os.mkdir(trial.at("folder"))
    trial.put("folder/of-run", output.older)
    with search_begun(trial, output, *output.line("folder/of-run")) as child:
        os.rename(trial.at("folder"), trial.at("moved"))
        before = trial.seen()
        done = go_on(trial, child)
    output.ends_unwritten(trial, done)
    trial.tells(done, "folder/of-run")
    if output.option == "--out":
        tells_plan(trial, done, output)
    trial.left(before)


def becomes(searches):
    """What becomes of a path during the search."""
    for output in searches:
        for what, put in BECOMES.items():
            for is_older in (False, True):
                over = "an older file" if is_older else "nothing"
                yield (f"{output.name}: at its path {over}, and during the search {what}",
                       partial(try_becomes, output, put, is_older))
        yield f"{output.name}: its path gets a link to something else", partial(try_becomes_link, output)
        yield (f"{output.name}: the older file is taken away",
               partial(try_taken_away, output, lambda trial: os.remove(trial.at("of-run"))))
        yield (f"{output.name}: the older file becomes another one of the kind, of mode 600",
               partial(try_taken_away, output, lambda trial, text=output.older: trial.put("of-run", text, 0o600)))
        yield f"{output.name}: the folder of its path gets another name", partial(try_folder_gone, output)
        for what, put in (("a file", lambda trial, text=output.older: trial.put("of-run.part", text)),
                          ("a link", lambda trial: os.symlink("of-mine", trial.at("of-run.part"))),
                          ("a pipe", lambda trial: os.mkfifo(trial.at("of-run.part")))):
            yield f"{output.name}: at its PATH.part, during the search, {what}", partial(try_part_taken, output, put)


def try_told(output, path, reason, is_older, trial):
    """A path that can't be written is told before the search, and again at its end, with what was found."""
    put_all_paths(trial, output.older if is_older else None)
    output.put(trial)
    user = None
    if os.getuid() == 0:
        user = NOBODY
        os.chown(trial.folder, NOBODY, NOBODY)
        trial.run_as_nobody("--version")
    before = trial.seen()
    with search_begun(trial, output, *output.line(path), user=user) as child:
        first = Done(None, "", said_so_far(child))
        done = go_on(trial, child)
    trial.holds(path in first.said and reason in first.said,
                f"before the search standard error has {first.said[:200]!r}, without {path!r} and {reason!r}")
    output.ends_unwritten(trial, done)
    trial.tells(done, path)
    if output.option == "--out":
        tells_plan(trial, done, output)
    trial.left(before)


def try_owned(output, trial):
    """A file of another user, which this one may write, is told before the search: the new one could not get its owner. It stays, and
    the new one lies beside it."""
    if os.getuid() != 0:
        raise Skipped("only root can put a file of another user")
    output.put(trial)
    trial.put("of-run", output.older, 0o666)
    os.chown(trial.folder, NOBODY, NOBODY)
    trial.run_as_nobody("--version")
    before = trial.seen()
    with search_begun(trial, output, *output.line("of-run"), user=NOBODY) as child:
        first = said_so_far(child)
        done = go_on(trial, child)
    trial.holds("of-run" in first and "Operation not permitted" in first, f"before the search standard error has {first[:200]!r}")
    trial.tells(done, "of-run.part")
    trial.left(before, free=["of-run.part"])
    trial.holds(trial.get("of-run.part") == output.whole, "the whole file isn't at of-run.part")


def told_before(searches):
    """Paths that can't be written, of a search."""
    for output in searches:
        for where, (path, reason) in UNWRITABLE.items():
            yield (f"{output.name} at a path {where}, told before the search",
                   partial(try_told, output, path, reason, where.endswith("older one")))
        yield f"{output.name} over a file of another user, told before the search", partial(try_owned, output)


def try_two(output, rival, trial):
    """Two runs with one path, started at one time: each ends as alone, and the file is that of one of them. A certificate that
    says less lies beside the other one."""
    output.put(trial)
    ends = {it.whole: (it.code, it.text) for it in (output, rival)}
    for number in range(ROUNDS):
        trial.put("of-run", output.older)
        before = trial.seen()
        children = [(it, trial.start(*it.line("of-run"))) for it in ((output, rival) if number % 2 else (rival, output))]
        for it, child in children:
            done = trial.end(child)
            trial.holds(trial.get("of-run") in ends, "at the end of a run its path hasn't the whole file of either")
            it.ends_or_stays_beside(trial, done, "of-run")
        left = trial.get("of-run")
        trial.left(before, {"of-run": left if left in ends else output.whole})
        if trial.wrong:
            return


def try_two_quick(older, trial):
    """A search that proves its plan and one that ends at once, both quick, with one path: in the end the proof stands there."""
    trial.put("units.toml", example("handling-cell.toml"))
    trial.run("plan", "--nodes", "1", "--out", "first", "units.toml")
    trial.run("plan", "--out", "proof", "units.toml")
    for number in range(PAIRS):
        trial.put("c", trial.get("first") if older else b"")
        if not older:
            os.remove(trial.at("c"))
        words = [(), ("--nodes", "1")]
        children = [trial.start("plan", *more, "--out", "c", "units.toml") for more in (words if number % 2 else words[::-1])]
        for child in children:
            trial.end(child)
        trial.holds(trial.get("c") == trial.get("proof"), f"pair {number}: the proof doesn't stand there")
        if trial.wrong:
            return


def two_runs(outputs):
    """Two runs with one path at one time."""
    for older in (False, True):
        yield f"plan --out: two quick runs with one path, {PAIRS} times, over {'an older one' if older else 'nothing'}", partial(
            try_two_quick, older)
    for output in outputs:
        yield f"{output.name}: two runs with one path, {ROUNDS} times", partial(try_two, output, output.rival)


def try_resumed(output, put, newer, trial):
    """A search goes on with a certificate and writes over it, while another run puts a certificate there: one that says more stays,
    and what was found lies beside it."""
    alone = Output("", ["resume", "--cert", "given.cert", "--nodes", "150000"], "--out", output.units, b"", output.older).run_undisturbed(trial)
    trial.put("c", output.older)
    before = trial.seen()
    with search_begun(trial, alone, "resume", "--cert", "c", "--nodes", "150000", "--out", "c", "units.toml") as child:
        change(trial, before, lambda it: put(it, "c", newer), "c")
        done = go_on(trial, child)
    if newer == output.older:
        trial.holds(done.code == 2 and trial.get("c") not in (None, newer), f"status {done.code}, and the file isn't a new one")
        trial.left(before, free=["c"])
        return
    trial.ends(done, 4, REFUSED_WRITE)
    trial.tells(done, "c.part", "says more")
    trial.left(before, free=["c.part"])


def resumed(searches):
    """A certificate that is gone on with, and written over, during the search."""
    output, *_ = searches
    for how, put in (("in its place", lambda it, name, text: it.put(name, text)), ("by another file that takes its name", replace_by_edited)):
        yield f"resume --cert c --out c, and c says more by then, {how}", partial(try_resumed, output, put, output.whole)
        yield f"resume --cert c --out c, and c is written again, {how}", partial(try_resumed, output, put, output.older)


def while_at_work(searches):
    """All of these ways that need a search."""
    for kind in (edits, becomes, told_before, resumed):
        yield from kind(searches)
