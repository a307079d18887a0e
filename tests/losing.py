"""The ways to lose a file that need nothing but files: what stands beside a path and at it, links, modes, paths that are
one, and paths that can't be written.

Each function gives ways: a name, and what is called with a `Trial`. What a run may leave is written in FORMATS, "Files that
are written".
"""
import os
import re
from functools import partial

from trials import NOBODY, OTHER_GROUP, OTHER_USER, REFUSED_WRITE, Skipped, example

MOST_PARTS = 999
NOTES = b"notes of mine, which are nothing that the program writes\n"


def put_link(trial, name, to):
    os.symlink(to, trial.at(name))


def put_link_to_older(trial, name, older):
    trial.put("of-mine", older)
    put_link(trial, name, "of-mine")


def put_folder(trial, name, older):
    os.mkdir(trial.at(name))
    trial.put(os.path.join(name, "of-mine"), older)


def put_three(trial, name, older):
    for more in ("", "2", "3"):
        trial.put(name + more, older + more.encode("ascii"))


# What stands at PATH.part: how it is put there.
STANDING = {
    "an older file of the kind": lambda trial, name, older: trial.put(name, older),
    "a file with something else": lambda trial, name, older: trial.put(name, NOTES),
    "an empty file": lambda trial, name, older: trial.put(name, b""),
    "a link that leads nowhere": lambda trial, name, older: put_link(trial, name, "of-mine"),
    "a link to a file": put_link_to_older,
    "a pipe": lambda trial, name, older: os.mkfifo(trial.at(name)),
    "a folder": put_folder,
    "a file, and at .part2 and .part3 too": put_three,
}


def write_over_older(trial, output, path="of-run", **means):
    """Runs an output's job over an older file, and holds that this alone is replaced."""
    output.put(trial)
    trial.put(path, output.older)
    before = trial.seen()
    done = trial.run(*output.line(path), **means)
    trial.ends(done, output.code, output.text)
    trial.left(before, {path: output.whole})


def try_beside(output, put, trial):
    put(trial, "of-run.part", output.older)
    write_over_older(trial, output)


def try_no_free_name(output, trial):
    """Where all names are taken the file can't be written."""
    output.put(trial)
    trial.put("of-run", output.older)
    for number in range(1, MOST_PARTS + 1):
        trial.put("of-run.part" + (str(number) if 1 < number else ""), b"")
    before = trial.seen()
    done = trial.run(*output.line("of-run"))
    output.ends_unwritten(trial, done)
    trial.tells(done, "of-run")
    trial.left(before)


def beside(outputs):
    """What stands at PATH.part."""
    for output in outputs:
        for what, put in STANDING.items():
            yield f"{output.name}, at its PATH.part {what}", partial(try_beside, output, put)
        yield f"{output.name}, all names up to PATH.part{MOST_PARTS} taken", partial(try_no_free_name, output)


def try_read_and_written(output, words, put, written, trial):
    """A run that reads one file and writes another; all that isn't written stays."""
    output.put(trial)
    for name, text in put.items():
        trial.put(name, text)
    before = trial.seen()
    trial.ends(trial.run(*words), output.code, output.text)
    trial.left(before, written)


def read_and_written(outputs):
    """What a run reads under the name at which it could make its file."""
    cert, resumed, capture, picture, places, header, *_ = outputs
    whole, placed = resumed.whole, places.whole
    resume = ["resume", "--out", "c", "units.toml", "--cert"]

    def way(name, output, words, put, written):
        return name, partial(try_read_and_written, output, words, put, written)

    yield way("resume --cert c.part --out c", resumed, [*resume, "c.part"], {"c.part": resumed.given}, {"c": whole})
    yield way("resume --cert c.part --out c, over an older c", resumed, [*resume, "c.part"],
              {"c.part": resumed.given, "c": resumed.older}, {"c": whole})
    yield way("resume --cert c.part2 --out c", resumed, [*resume, "c.part2"],
              {"c.part": b"", "c.part2": resumed.given}, {"c": whole})
    yield way("resume --cert c --out c, beside an older c.part", resumed, [*resume, "c"],
              {"c": resumed.given, "c.part": resumed.older}, {"c": whole})
    yield way("plan --places p p.part", places, ["plan", "--places", "p", "p.part"],
              {"p.part": places.units}, {"p": placed})
    yield way("plan --places p p, beside an older p.part", places, ["plan", "--places", "p", "p"],
              {"p": places.units, "p.part": places.older}, {"p": placed})
    yield way("plan --out c c.part", cert, ["plan", "--out", "c", "c.part"], {"c.part": cert.units}, {"c": cert.whole})
    yield way("frames --pcap x x.part", capture, ["frames", "--pcap", "x", "x.part"],
              {"x.part": capture.units}, {"x": capture.whole})
    yield way("cost --svg x x.part", picture, ["cost", "--svg", "x", "x.part"],
              {"x.part": picture.units}, {"x": picture.whole})
    yield way("frames --header x x.part", header, ["frames", "--header", "x", "x.part"],
              {"x.part": header.units}, {"x": header.whole})
    for out, to in (("x", "x.part"), ("x.part", "x")):
        yield way(f"plan --out {out} --places {to}", cert, ["plan", "--out", out, "--places", to, "units.toml"], {},
                  {out: cert.whole, to: placed})


def try_linked(output, link, to, trial):
    """A path that leads to an older file by links: that file is replaced, and the links stay."""
    os.makedirs(trial.at("folder"))
    put_link(trial, "link", "folder/real")
    put_link(trial, "link-to-link", "link")
    put_link(trial, "link-to-folder", "folder")
    output.put(trial)
    for name in (to, to + ".part", link + ".part"):
        if name.startswith("link-to-folder"):
            continue
        trial.put(name, output.older)
    before = trial.seen()
    trial.ends(trial.run(*output.line(link)), output.code, output.text)
    trial.left(before, {to: output.whole})


def try_link_nowhere(output, trial):
    output.put(trial)
    put_link(trial, "link", "nothing")
    before = trial.seen()
    done = trial.run(*output.line("link"))
    output.ends_unwritten(trial, done)
    trial.tells(done, "link")
    trial.left(before)


def try_link_to_notes(output, trial):
    output.put(trial)
    put_link(trial, "link", "notes")
    trial.put("notes", NOTES)
    before = trial.seen()
    trial.ends(trial.run(*output.line("link")), 4, REFUSED_WRITE)
    trial.left(before)


def try_other_name(output, trial):
    """A file with two names: the other name keeps the older file."""
    output.put(trial)
    trial.put("of-run", output.older)
    os.link(trial.at("of-run"), trial.at("other-name"))
    before = trial.seen()
    trial.ends(trial.run(*output.line("of-run")), output.code, output.text)
    trial.left(before, {"of-run": output.whole})


LINKS = {"link": "folder/real", "link-to-link": "folder/real", "link-to-folder/of-run": "folder/of-run"}


def linked(outputs):
    """Links at PATH."""
    for output in outputs:
        for link, to in LINKS.items():
            yield f"{output.name} by {link}", partial(try_linked, output, link, to)
        yield f"{output.name}, a link that leads nowhere", partial(try_link_nowhere, output)
        yield f"{output.name}, a link to something else", partial(try_link_to_notes, output)
        yield f"{output.name}, a file with two names", partial(try_other_name, output)


def try_mode(output, mode, trial):
    output.put(trial)
    trial.put("of-run", output.older, mode)
    before = trial.seen()
    trial.ends(trial.run(*output.line("of-run")), output.code, output.text)
    trial.left(before, {"of-run": output.whole})


def try_owner(output, trial):
    if os.getuid() != 0:
        raise Skipped("only root gives a file another owner")
    output.put(trial)
    trial.put("of-run", output.older, 0o640)
    os.chown(trial.at("of-run"), OTHER_USER, OTHER_GROUP)
    before = trial.seen()
    trial.ends(trial.run(*output.line("of-run")), output.code, output.text)
    trial.left(before, {"of-run": output.whole})


def try_new_mode(output, umask, trial):
    """A file where none stood has the mode that the system gives."""
    output.put(trial)
    before = trial.seen()
    trial.ends(trial.run(*output.line("of-run"), umask=umask), output.code, output.text)
    trial.left(before, {"of-run": output.whole})
    found = trial.seen().get("of-run")
    is_given = found is not None and found.mode == 0o666 & ~umask
    trial.holds(is_given, f"umask {umask:o} gave the mode {found and oct(found.mode)}")


def try_of_another(output, trial):
    """A file of another user, whose owner can't be kept: the whole file lies beside it."""
    if os.getuid() != 0:
        raise Skipped("only root makes files of two users")
    output.put(trial)
    trial.put("of-run", output.older, 0o666)
    os.chmod(trial.folder, 0o777)
    before = trial.seen()
    done = trial.run_as_nobody(*output.line("of-run"))
    output.ends_unwritten(trial, done)
    trial.tells(done, "of-run.part")
    trial.left(before, {"of-run.part": output.whole})


def modes(outputs):
    """The mode and the owner of a file that is replaced."""
    for output in outputs:
        for mode in (0o600, 0o640, 0o444):
            yield f"{output.name} over a file of mode {mode:o}", partial(try_mode, output, mode)
        yield f"{output.name} over a file of another owner", partial(try_owner, output)
        yield f"{output.name} by a user who isn't its owner", partial(try_of_another, output)
        for umask in (0o022, 0o077):
            yield f"{output.name} where none stood, umask {umask:o}", partial(try_new_mode, output, umask)


def try_one_path(words, first, second, stands, put, trial):
    """Two paths that are one are refused before anything is read: endless units too."""
    os.makedirs(trial.at("folder"))
    put_link(trial, "link-to-folder", "folder")
    put_link(trial, "link", "of-run")
    put(trial)
    if stands is not None:
        trial.put("of-run", stands)
        trial.put("folder/of-run", stands)
    before = trial.seen()
    for options in (["--out", first, "--places", second], ["--places", first, "--out", second]):
        for units in ("units.toml", "/dev/zero"):
            done = trial.run(*words, *options, units)
            trial.ends(done, 4, REFUSED_WRITE)
            trial.tells(done, "of-run")
            trial.left(before)
            trial.holds(done.said != "", "standard error says nothing")


def one_path(outputs):
    """`--out` and `--places` with paths that are one."""
    cert, resumed, *_ = outputs
    for job in (cert, resumed):
        for first, second in (("of-run", "of-run"), ("of-run", "./of-run"), ("of-run", "folder/../of-run"),
                              ("folder/of-run", "link-to-folder/of-run")):
            yield (f"{' '.join(job.words)} --out {first} --places {second}",
                   partial(try_one_path, job.words, first, second, None, job.put))
        for first, second in (("of-run", "of-run"), ("of-run", "link"), ("folder/of-run", "link-to-folder/of-run")):
            yield (f"{' '.join(job.words)} --out {first} --places {second}, over an empty file",
                   partial(try_one_path, job.words, first, second, b"", job.put))


def try_kept(output, path, stands, trial):
    """A file that holds something else is left."""
    output.put(trial)
    if stands is not None:
        trial.put(path, stands)
    before = trial.seen()
    done = trial.run(*output.line(path))
    trial.ends(done, 4, REFUSED_WRITE)
    trial.tells(done, path)
    trial.left(before)


def try_output_goes(output, trial):
    """Standard output goes to the file at PATH, which it has emptied: nothing is written there."""
    output.put(trial)
    trial.put("of-run", b"")
    before = trial.seen()
    with open(trial.at("of-run"), "wb") as out:
        done = trial.run(*output.line("of-run"), out=out)
    trial.holds(done.code == 4, f"it ended with status {done.code}")
    trial.left(before, {"of-run": b""})


def try_no_file(output, trial):
    """A pipe at PATH is written to and stays."""
    output.put(trial)
    os.mkfifo(trial.at("pipe"))
    before = trial.seen()
    reader = os.open(trial.at("pipe"), os.O_RDONLY | os.O_NONBLOCK)
    try:
        done = trial.run(*output.line("pipe"))
        got = os.read(reader, 1 << 20)
    finally:
        os.close(reader)
    trial.ends(done, output.code, output.text)
    trial.holds(got == output.whole, f"{len(got)} bytes came out of the pipe")
    trial.left(before)


def try_to_output(output, trial):
    """`/dev/stdout`, a pipe: first the file, then the text."""
    output.put(trial)
    before = trial.seen()
    done = trial.run(*output.line("/dev/stdout"))
    trial.ends(done, output.code, output.whole.decode("ascii", "replace") + output.text)
    trial.left(before)


def try_refused(output, name, is_older, trial):
    """A run that is refused for what it reads leaves all as it was."""
    output.put(trial)
    trial.put(name, NOTES)
    if is_older:
        trial.put("of-run", output.older)
    before = trial.seen()
    done = trial.run(*output.line("of-run"))
    is_refused = done.code == 3 and done.text.startswith("refused ")
    trial.holds(is_refused, f"it ended with status {done.code} and {done.text[:40]!r}")
    trial.left(before)


def refused(outputs):
    """Runs that are refused before anything is written."""
    for is_older, stands in ((False, "where nothing stands"), (True, "over an older file")):
        for output in outputs:
            yield f"{output.name} of units that are refused, {stands}", partial(try_refused, output, "units.toml", is_older)
        yield (f"{outputs[1].name}, a certificate that is refused, {stands}",
               partial(try_refused, outputs[1], "given.cert", is_older))


def kept(outputs):
    """What is no file of the kind at PATH."""
    for output in outputs:
        yield f"{output.name} over something else", partial(try_kept, output, "of-run", NOTES)
        if output.option != "--places":
            yield f"{output.name} over its units", partial(try_kept, output, "units.toml", None)
        yield f"{output.name} to where standard output goes", partial(try_output_goes, output)
        yield f"{output.name} to a pipe", partial(try_no_file, output)
    yield "a certificate to /dev/stdout", partial(try_to_output, outputs[0])
    yield "a capture to /dev/stdout", partial(try_to_output, outputs[2])
    placed = example("two-units-apart.toml")
    yield "a certificate over a unit text", partial(try_kept, outputs[0], "of-run", placed)
    yield "the places over a certificate", partial(try_kept, outputs[4], "of-run", outputs[0].older)


def put_all_paths(trial, older):
    """Folders and files for the paths of `UNWRITABLE`, among them an older file where there is to be one."""
    os.makedirs(trial.at("a-folder"))
    os.makedirs(trial.at("closed"))
    trial.put("a-file", NOTES)
    put_link(trial, "a-link", "nowhere/x")
    if older is not None:
        trial.put("closed/x", older, 0o666)
    os.chmod(trial.at("closed"), 0o555)


# Paths that can't be written, and a part of the system's reason where it has one.
UNWRITABLE = {
    "in a folder that isn't there": ("nowhere/x", "No such file or directory"),
    "under a file": ("a-file/x", "Not a directory"),
    "of a folder": ("a-folder", ""),
    "of a link that leads nowhere": ("a-link", ""),
    "in a folder that takes no new file": ("closed/x", "Permission denied"),
    "in a folder that takes no new file, over an older one": ("closed/x", "Permission denied"),
}


def try_unwritable(output, path, reason, is_older, trial):
    put_all_paths(trial, output.older if is_older else None)
    output.put(trial)
    if os.getuid() == 0:
        os.chown(trial.folder, NOBODY, NOBODY)
    before = trial.seen()
    done = trial.run_as_nobody(*output.line(path))
    output.ends_unwritten(trial, done)
    trial.tells(done, path, reason)
    trial.left(before)


def try_nameless(output, trial):
    """Where the path is empty, nothing is done."""
    output.put(trial)
    before = trial.seen()
    done = trial.run(*output.line(""))
    trial.ends(done, 4, REFUSED_WRITE)
    trial.tells(done, "is empty")
    trial.left(before)


def unwritable(outputs):
    """Paths that can't be written."""
    for output in outputs:
        yield f"{output.name} at a path of no letters", partial(try_nameless, output)
        for where, (path, reason) in UNWRITABLE.items():
            yield (f"{output.name} at a path {where}",
                   partial(try_unwritable, output, path, reason, where.endswith("older one")))


def try_older_that_says_more(longer, shorter, trial):
    """Where the certificate of a longer search stands, that of a shorter one lies beside it."""
    shorter.put(trial)
    trial.put("c", longer.whole)
    before = trial.seen()
    done = trial.run(*shorter.line("c"))
    trial.ends(done, 4, REFUSED_WRITE)
    says = "a proof for the same units" if longer.code == 0 else "a certificate of the same units that says more"
    trial.tells(done, *shorter.text.split("\n")[:1], "c.part", says)
    trial.left(before, {"c.part": shorter.whole})


def try_older_that_is_unread(older, shorter, trial):
    """Where what stands begins as a certificate and can't be read as one, the new one lies beside it."""
    shorter.put(trial)
    trial.put("c", older)
    before = trial.seen()
    done = trial.run(*shorter.line("c"))
    trial.ends(done, 4, REFUSED_WRITE)
    trial.tells(done, *shorter.text.split("\n")[:1], "c.part", "cannot be read")
    trial.left(before, {"c.part": shorter.whole})


def of_longer_searches(outputs):
    """Certificates of the same units that say more, and what may have been one."""
    cert, resumed, *_ = outputs
    for what, older in (("a proof with CR LF", cert.whole.replace(b"\n", b"\r\n")),
                        ("a proof that is cut", cert.whole[:-9])):
        yield f"plan --nodes 45 --out c, over {what}", partial(try_older_that_is_unread, older, cert.rival)
    for longer in (cert, resumed):
        yield f"plan --nodes 45 --out c, over {longer.name} of the same units that says more", partial(
            try_older_that_says_more, longer, cert.rival)
    yield "plan --nodes 30 --out c, over that of plan --nodes 45, of the same value and level", partial(
        try_older_that_says_more, cert.rival, cert.fewer)
    yield "plan --strong --nodes 1 --out c, over one by other rules of the same value and level", try_more_nodes_by_other_rules
    for words in (["plan", "--nodes", "45"], ["plan", "--strong"]):
        yield f"{' '.join(words)} --out c, over a proof of another line", partial(
            try_cert_of_other_line, example("one-unit.cert"), words)
    for what, (put, name) in OLD.items():
        yield f"plan --nodes 45 --out c, over a proof of other units, at c.old {what}", partial(try_proof_of_other_units, put, name)
    yield "resume --part 1/2 --cert c.old --out c, over a proof of other units", try_old_that_is_read
    yield f"plan --nodes 45 --out c, over a proof of other units, all names up to c.old{MOST_PARTS} taken", try_no_free_old_name


def try_better_places(units, trial):
    """Places of a plan that costs more don't take the place of better ones for the same units, and nothing is missing; others do."""
    trial.put("units.toml", example("assembly-line.toml"))
    trial.holds(trial.run("plan", "--strong", "--places", "placed.toml", "units.toml").code == 0, "no best plan")
    before = trial.seen()
    worse = trial.run("plan", "--nodes", "1", "units.toml")
    done = trial.run("plan", "--nodes", "1", "--places", "placed.toml", units)
    trial.ends(done, 2, worse.text)
    trial.tells(done, "placed.toml", "costs less")
    trial.left(before)
    again = trial.run("plan", "--strong", "--places", "placed.toml", units)
    trial.holds(again.code == 0, f"places of the same cost: {again.said}")


def try_places_of_a_proof(trial):
    """Where the certificate of a proof stays, so do places that cost as much: they are that certificate's."""
    trial.put("units.toml", example("assembly-line.toml"))
    proof = ["--out", "c", "--places", "placed.toml", "units.toml"]
    trial.holds(trial.run("plan", "--strong", *proof).code == 0, "no best plan")
    before = trial.seen()
    done = trial.run("plan", "--nodes", "200000", *proof)
    trial.ends(done, 4, REFUSED_WRITE)
    trial.tells(done, "c.part", "placed.toml", "may be those of the certificate")
    trial.left(before, free=("c.part",))
    again = trial.run("plan", "--nodes", "200000", "--places", "placed.toml", "units.toml")
    trial.tells(again, "placed.toml", "costs as much as that of this plan")
    trial.holds(again.code == 2 and trial.get("placed.toml") == before["placed.toml"].holds, f"places without a certificate: {again.said}")
    trial.put("placed.toml", b"# A line.\n" + before["placed.toml"].holds)
    other = trial.run("plan", "--nodes", "200000", "--places", "placed.toml", "units.toml")
    trial.tells(other, "placed.toml", "line 1", "# A line.")
    trial.holds(other.code == 2 and trial.get("placed.toml") != before["placed.toml"].holds, f"places over another text: {other.said}")


def try_alike_places(change, trial):
    """Better places stay, also of a text that says something else on which no cost stands."""
    trial.put("units.toml", example("assembly-line.toml"))
    trial.run("plan", "--strong", "--places", "placed.toml", "units.toml")
    trial.put("placed.toml", change(trial.get("placed.toml")))
    before = trial.seen()
    worse = trial.run("plan", "--nodes", "1", "units.toml")
    done = trial.run("plan", "--nodes", "1", "--places", "placed.toml", "units.toml")
    trial.ends(done, 4, worse.text)
    trial.tells(done, "placed.toml", "costs less")
    trial.left(before)


def try_other_places(change, trial):
    """Better places of a text that says something else on which costs stand are replaced."""
    trial.put("units.toml", example("assembly-line.toml"))
    trial.run("plan", "--strong", "--places", "placed.toml", "units.toml")
    other = change(trial.get("placed.toml"))
    trial.put("placed.toml", other)
    done = trial.run("plan", "--nodes", "1", "--places", "placed.toml", "units.toml")
    trial.holds(done.code == 2 and trial.get("placed.toml") != other, f"status {done.code}: {done.said}")


def try_other_line(trial):
    """A text of another line stays, by the names of its units; one of which half have the same names doesn't."""
    trial.put("units.toml", example("assembly-line.toml"))
    trial.run("plan", "--strong", "--places", "placed.toml", "units.toml")
    own = trial.get("placed.toml")
    count = own.count(b'name = "')
    for changed in (count // 2, count // 2 + 1):
        other = own.replace(b'name = "', b'name = "x-', changed)
        trial.put("placed.toml", other)
        done = trial.run("plan", "--strong", "--places", "placed.toml", "units.toml")
        if changed <= count // 2:
            trial.holds(done.code == 0 and trial.get("placed.toml") == own, f"status {done.code}: {done.said}")
        else:
            trial.tells(done, "placed.toml", "holds a text of another line", "It is of another line")
            trial.holds(done.code == 4 and trial.get("placed.toml") == other, f"status {done.code}: {done.said}")


def try_cert_of_other_line(older, words, trial):
    """A certificate of another line stays, also under a proof, and the new one lies beside it."""
    trial.put("units.toml", example("assembly-line.toml"))
    trial.put("c", older)
    before = trial.seen()
    alone = trial.run(*words, "units.toml")
    done = trial.run(*words, "--out", "c", "units.toml")
    trial.ends(done, 4, REFUSED_WRITE)
    trial.tells(done, "c.part", "of another line", alone.text.split("\n")[0])
    trial.left(before, {"c.part": trial.get("c.part")})


# What stands at c.old where a proof is to lie that makes room: how it is put there, and the name that the proof gets.
OLD = {
    "nothing": (lambda trial, name, older: None, "c.old"),
    "an older certificate": (lambda trial, name, older: trial.put(name, older), "c.old2"),
    "a certificate that may not be written": (lambda trial, name, older: trial.put(name, older, 0o444), "c.old2"),
    "a link to a certificate": (put_link_to_older, "c.old2"),
    "a link that leads nowhere": (lambda trial, name, older: put_link(trial, name, "of-mine"), "c.old2"),
    "something else": (lambda trial, name, older: trial.put(name, NOTES), "c.old2"),
    "a pipe": (lambda trial, name, older: os.mkfifo(trial.at(name)), "c.old2"),
    "a folder": (put_folder, "c.old2"),
}


def put_other_proof(trial):
    """A proof for other units of the same line, at c."""
    trial.put("units.toml", example("assembly-line.toml"))
    trial.put("other.toml", example("assembly-line.toml").replace(b"period = 20", b"period = 10"))
    trial.run("plan", "--strong", "--out", "c", "other.toml")


def try_proof_of_other_units(put, name, trial):
    """A proof of other units of the same line stays beside a certificate that is none, under the first name that is free."""
    put_other_proof(trial)
    trial.run("plan", "--nodes", "45", "--out", "d", "units.toml")
    put(trial, "c.old", example("one-unit.cert"))
    before, older, whole = trial.seen(), trial.get("c"), trial.get("d")
    done = trial.run("plan", "--nodes", "45", "--out", "c", "units.toml")
    trial.holds(done.code == 2, f"status {done.code}: {done.said}")
    trial.left(before, {"c": whole, name: older})


def try_old_that_is_read(trial):
    """What lay beside c is gone on with, and its part goes to c: it stays, and the proof at c gets another name."""
    put_other_proof(trial)
    trial.run("plan", "--nodes", "45", "--out", "c.old", "units.toml")
    before, older = trial.seen(), trial.get("c")
    done = trial.run("resume", "--nodes", "1", "--part", "1/2", "--cert", "c.old", "--out", "c", "units.toml")
    trial.holds(done.code == 2, f"status {done.code}: {done.said}")
    trial.left(before, {"c": trial.get("c"), "c.old2": older})


def try_no_free_old_name(trial):
    """Where all names are taken, the proof stays, and the new certificate lies beside it."""
    put_other_proof(trial)
    trial.run("plan", "--nodes", "45", "--out", "d", "units.toml")
    for number in range(1, MOST_PARTS + 1):
        trial.put("c.old" + (str(number) if 1 < number else ""), b"")
    before, whole = trial.seen(), trial.get("d")
    done = trial.run("plan", "--nodes", "45", "--out", "c", "units.toml")
    trial.ends(done, 4, REFUSED_WRITE)
    trial.tells(done, "c.part")
    trial.left(before, {"c.part": whole})


def try_more_nodes_by_other_rules(trial):
    """A certificate with as good a plan and level and more nodes stays, by whatever rules either is."""
    trial.put("units.toml", example("assembly-line.toml"))
    trial.run("plan", "--nodes", "300", "--out", "c", "units.toml")
    trial.run("plan", "--strong", "--nodes", "1", "--out", "d", "units.toml")
    shorter = trial.get("d")
    level = re.search(rb"(?m)^level .*", shorter)[0]
    values = [re.search(rb"(?m)^value .*", trial.get(path))[0] for path in ("c", "d")]
    trial.holds(values[0] == values[1], f"two values: {values}")
    trial.put("c", re.sub(rb"(?m)^level .*", level, trial.get("c")))
    before = trial.seen()
    done = trial.run("plan", "--strong", "--nodes", "1", "--out", "c", "units.toml")
    trial.ends(done, 4, REFUSED_WRITE)
    trial.tells(done, "c.part", "says more")
    trial.left(before, {"c.part": shorter})


def try_longer_text(trial):
    """A text that is too long is no unit text, though it has better places in front: it is left."""
    trial.put("units.toml", example("assembly-line.toml"))
    trial.run("plan", "--strong", "--places", "placed.toml", "units.toml")
    trial.put("placed.toml", trial.get("placed.toml") + b"#" * 1200000)
    before = trial.seen()
    done = trial.run("plan", "--nodes", "1", "--places", "placed.toml", "units.toml")
    trial.ends(done, 4, REFUSED_WRITE)
    trial.tells(done, "placed.toml", "holds something else")
    trial.left(before)


def better_places(_outputs):
    """`--places` where better places for the same units stand, or for others."""
    for what, change in (("another station", lambda text: text.replace(b"station = 2001", b"station = 2999")),
                         ("another tick", lambda text: text.replace(b"tick_ns = ", b"tick_ns = 1"))):
        yield f"plan --places p, over better places with {what}", partial(try_alike_places, change)
    yield "plan --places p, over better places with one slot more", partial(
        try_other_places, lambda text: text.replace(b"slots = 1", b"slots = 2"))
    yield "plan --places p, over a text of another line", try_other_line
    yield "plan --places p, over better places with a text that is too long", try_longer_text
    yield "plan --places p, over better places of another text for the same units", partial(try_better_places, "units.toml")
    yield "plan --places p p, over better places of its own", partial(try_better_places, "placed.toml")
    yield "plan --out c --places p, over a proof and its places", try_places_of_a_proof


def at_rest(outputs):
    """All of these ways."""
    for kind in (beside, read_and_written, linked, modes, one_path, refused, kept, unwritable, of_longer_searches, better_places):
        yield from kind(outputs)
