"""What the tests tell of their rows.

A row passes, fails, or is skipped with its reason. Each test script ends with the line `N passed, M failed`, before it
`K skipped` where there were such, and with status 1 where a row failed; `tests/run` adds these lines up.
"""
import re

PASSED = re.compile(r"(\d+) passed, (\d+) failed")
SKIPPED = re.compile(r"(\d+) skipped")


class Rows:
    """The rows of a script, counted."""

    def __init__(self):
        self.passed = self.failed = self.skipped = 0

    def passes(self, count=1):
        self.passed += count

    def fails(self, name, why):
        """Tells a row that failed, with what is wrong."""
        self.failed += 1
        print(f"FAILED {name}: {why}", flush=True)

    def skips(self, name, why, count=1):
        """Tells rows that weren't tried, and why."""
        self.skipped += count
        print(f"skipped {name}: {why}", flush=True)

    def holds(self, name, is_right, why):
        """A row that passes where it is right; `why` says what is wrong where it isn't."""
        if is_right:
            self.passes()
        else:
            self.fails(name, why)
        return is_right

    def same(self, name, got, due):
        """A row that passes where it is as it has to be."""
        if got == due:
            self.passes()
        else:
            self.fails(name, f"{shown(got)}, and not {shown(due)}")
        return got == due

    def add(self, other):
        self.passed += other.passed
        self.failed += other.failed
        self.skipped += other.skipped

    def end(self):
        """The last lines of the script; its status."""
        if self.skipped:
            print(f"{self.skipped} skipped")
        print(f"{self.passed} passed, {self.failed} failed", flush=True)
        return 1 if self.failed else 0


def shown(what):
    """A value in a line, shortened."""
    text = repr(what)
    return text if len(text) <= 300 else text[:200] + " .. " + text[-80:]


def read_end(text):
    """The rows that the last lines of a script count; none where it ended otherwise."""
    rows = Rows()
    lines = text.rstrip("\n").split("\n")
    last = PASSED.fullmatch(lines[-1])
    if last is None:
        return None
    rows.passed, rows.failed = int(last[1]), int(last[2])
    before = SKIPPED.fullmatch(lines[-2]) if 1 < len(lines) else None
    rows.skipped = int(before[1]) if before else 0
    return rows
