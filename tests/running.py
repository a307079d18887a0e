"""Runs of the program in a folder of its own, and its files; frames of one datagram."""
import os
import subprocess


def frame_of(command, low, offset, data):
    """A frame of one datagram, as FORMATS has it."""
    body = bytes([command, 0]) + low.to_bytes(2, "little") + offset.to_bytes(2, "little")
    body += len(data).to_bytes(2, "little") + bytes(2) + data + bytes(2)
    head = bytes.fromhex("ffffffffffff02000000000188a4") + (0x1000 | len(body)).to_bytes(2, "little")
    return (head + body).ljust(60, b"\0")


class Runs:
    """Runs of the program in a folder, whose rows are noted."""

    def __init__(self, program, folder, rows):
        self.program, self.folder, self.rows = program, folder, rows

    def at(self, name):
        return os.path.join(self.folder, name)

    def run(self, *words):
        """The status, what standard output got, and what standard error got."""
        done = subprocess.run([self.program, *words], stdin=subprocess.DEVNULL, stdout=subprocess.PIPE, stderr=subprocess.PIPE,
                              cwd=self.folder, check=False)
        return done.returncode, done.stdout.decode("ascii", "replace"), done.stderr.decode("ascii", "replace")

    def held(self, path):
        """What stands at a path: the bytes of a file, or that it is something else or nothing."""
        at = self.at(path)
        if os.path.isfile(at):
            return self.read(path)
        return "a folder" if os.path.isdir(at) else "a device" if os.path.exists(at) else "nothing"

    def write(self, name, text):
        with open(self.at(name), "w", encoding="ascii") as file:
            file.write(text)

    def read(self, name):
        """The bytes of a file; none where there is no file."""
        if not os.path.exists(self.at(name)):
            return None
        with open(self.at(name), "rb") as file:
            return file.read()
