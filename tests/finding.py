"""Where the programs stand that the tests and measures run.

`program(told)` is the planner: the one that a script was told, else the one that `tools/build --ready` names, which is
there for the sources of this tree, released, kept or built. `scripts_program(told)` is the program of `crates/test_scripts`,
whose scripts of calls `tests/refused_calls` gives to it. Nothing is proved or built here. Where there is no planner, one
line on standard error says what to do, and the status is 4.
"""
import os
import subprocess
import sys

TOP = os.path.dirname(os.path.dirname(os.path.abspath(__file__)))
sys.dont_write_bytecode = True
sys.path.insert(0, os.path.join(TOP, "tools"))
import sources  # noqa: E402

EXAMPLES = os.path.join(TOP, "examples")
REFERENCE = os.path.join(TOP, "bench", "reference")
# What a script ends with that has nothing to run.
NO_PROGRAM = 4
SCRIPTS_CRATE = "test_scripts"
NO_SCRIPTS = "there is no built test_scripts of these sources: `rt run` in crates/test_scripts proves and builds it"


def stop(why):
    """Ends the script with one line."""
    print(f"{os.path.basename(sys.argv[0])}: {why}", file=sys.stderr)
    sys.exit(NO_PROGRAM)


def named(told):
    """The whole path of a program that was told, which has to be there."""
    path = os.path.abspath(told)
    if not (os.path.isfile(path) and os.access(path, os.X_OK)):
        stop(f"{told} is no program that can be run")
    return path


def program(told=None):
    """The path of the planner."""
    if told is not None:
        return named(told)
    asked = subprocess.run([os.path.join(TOP, "tools", "build"), "--ready"], stdout=subprocess.PIPE,
                           stderr=subprocess.PIPE, text=True, check=False)
    path = asked.stdout.strip()
    if asked.returncode == 0 and os.access(path, os.X_OK):
        return path
    why = asked.stderr.strip().split("\n")[-1].removeprefix("ecplan: ")
    return stop(why or "no program is there for these sources: ./ecplan builds it, or name one")


def is_newer(path, crate):
    """Whether a file is newer than each source of a crate and of those that it stands on."""
    made = os.path.getmtime(path)
    crates = sources.stands_on(sources.lines_of_crates(), crate)
    return all(os.path.getmtime(os.path.join(TOP, it)) <= made for name in crates for it in sources.files_of(name))


def scripts_program(told=None):
    """The path of the program of scripts; none where it isn't there, or older than what it is built of."""
    if told is not None:
        return named(told)
    path = os.path.join(TOP, "crates", SCRIPTS_CRATE, "out", SCRIPTS_CRATE)
    is_there = os.access(path, os.X_OK) and is_newer(path, SCRIPTS_CRATE)
    return path if is_there else None
