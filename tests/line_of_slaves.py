#!/usr/bin/env python3
"""A line of slaves behind an Ethernet interface, for tests of a master.

    tests/line_of_slaves.py INTERFACE SLAVES [--away PLACE | --spoil lose|bend|swap|double|hold] [--after FRAMES]

takes each EtherCAT frame that comes to the interface, passes it through so many slaves, one after the other, and sends it
back. It is a model of its own, written from ETG.1000.4 alone: the frame (clause 5.3), datagrams, addressing and working
counters (5.4), the station address at 0x0010 (6.1), and FMMU records from 0x0600 on (6.6). Whole bytes are mapped. Of the
commands it has those by position, by station, by broadcast and by logical address that only read or only write, or read and
write by one slave (BRW, ARMW and FRMW pass).

A slave has a small application: after each frame each byte of its inputs is the byte of its outputs at the same place, turned
around at their end, and one more; of a slave without outputs it counts the reads. With --away the slave at PLACE, from 0,
passes frames on and does nothing, once so many frames have come. With --spoil the frame after so many is lost, comes back with
another address, behind the next one, or in place of the next one too; or with `hold` the HELD frames after so many come back all at
once, behind the last of them.

SIGTERM ends it. It then tells how many frames came, and of each slave the outputs that it holds and the inputs that were read
last: `frames N`, `outputs STATION HEX`, `inputs STATION HEX`.
"""
import argparse
import signal
import socket
import sys

ETHERCAT = 0x88A4
# Where the address of the first datagram stands.
ADDRESS = 18
MEMORY = 65536
HELD = 80
STATION, FMMUS, RECORD, RECORDS = 0x0010, 0x0600, 16, 4
APRD, APWR, APRW, FPRD, FPWR, FPRW, BRD, BWR = 1, 2, 3, 4, 5, 6, 7, 8
LRD, LWR, LRW = 10, 11, 12
READS = {APRD, APRW, FPRD, FPRW, LRD, LRW}
WRITES = {APWR, APRW, FPWR, FPRW, LWR, LRW}


def number(data, at, count):
    return int.from_bytes(data[at:at + count], "little")


class Datagram:
    """A datagram in the bytes of a frame: where its header, its data and its counter stand."""

    def __init__(self, frame, at):
        self.frame, self.at = frame, at
        self.command = frame[at]
        word = number(frame, at + 6, 2)
        self.length, self.has_more = word & 0x7FF, bool(word & 0x8000)
        self.data, self.counter = at + 10, at + 10 + self.length
        self.end = self.counter + 2

    def low(self):
        """The position or the station."""
        return number(self.frame, self.at + 2, 2)

    def offset(self):
        return number(self.frame, self.at + 4, 2)

    def logical(self):
        return number(self.frame, self.at + 2, 4)

    def count(self, by):
        """Adds to the working counter."""
        now = (number(self.frame, self.counter, 2) + by) & 0xFFFF
        self.frame[self.counter:self.end] = now.to_bytes(2, "little")

    def step(self):
        """One more for the position."""
        now = (self.low() + 1) & 0xFFFF
        self.frame[self.at + 2:self.at + 4] = now.to_bytes(2, "little")


def datagrams(frame):
    """The datagrams of a frame; none of what is no EtherCAT frame."""
    found = []
    if len(frame) < 16 or frame[12:14] != b"\x88\xa4" or number(frame, 14, 2) >> 12 != 1:
        return found
    end, at = 16 + (number(frame, 14, 2) & 0x7FF), 16
    while at + 12 <= min(end, len(frame)):
        datagram = Datagram(frame, at)
        if min(end, len(frame)) < datagram.end:
            break
        found.append(datagram)
        at = datagram.end
        if not datagram.has_more:
            break
    return found


class Slave:
    """A slave: its memory, and what it gave last of its inputs."""

    def __init__(self):
        self.memory = bytearray(MEMORY)
        self.given, self.reads = b"", 0

    def station(self):
        return number(self.memory, STATION, 2)

    def records(self):
        """The FMMU records that are active, as (logical, length, physical, type)."""
        found = []
        for k in range(RECORDS):
            record = self.memory[FMMUS + RECORD * k:FMMUS + RECORD * (k + 1)]
            is_whole = record[6] == 0 and record[7] == 7 and record[10] == 0
            if record[12] & 1 and is_whole:
                found.append((number(record, 0, 4), number(record, 4, 2), number(record, 8, 2), record[11]))
        return found

    def area(self, kind):
        """Where the bytes of a type of record lie in the memory."""
        for _logical, length, physical, its in self.records():
            if its & kind:
                return physical, length
        return 0, 0

    def step(self, datagram):
        """Does a datagram."""
        if datagram.command in (APRD, APWR, APRW, BRD, BWR):
            is_mine = datagram.low() == 0 or datagram.command in (BRD, BWR)
            if is_mine:
                self.touch(datagram)
            datagram.step()
        elif datagram.command in (FPRD, FPWR, FPRW):
            if datagram.low() == self.station():
                self.touch(datagram)
        elif datagram.command in (LRD, LWR, LRW):
            self.map(datagram)

    def touch(self, datagram):
        """Reads the memory at the offset, writes it, or both, and counts."""
        frame, at, length = datagram.frame, datagram.offset(), datagram.length
        if length == 0 or MEMORY < at + length:
            return
        there, come = bytes(self.memory[at:at + length]), bytes(frame[datagram.data:datagram.counter])
        if datagram.command == BRD:
            there = bytes(a | b for a, b in zip(there, come))
        if datagram.command in READS | {BRD}:
            frame[datagram.data:datagram.counter] = there
        if datagram.command in WRITES | {BWR}:
            self.memory[at:at + length] = come
        datagram.count(3 if datagram.command in (APRW, FPRW) else 1)

    def map(self, datagram):
        """Reads and writes what the FMMUs map of a logical datagram, and counts."""
        frame, start, end = datagram.frame, datagram.logical(), datagram.logical() + datagram.length
        come, has_read, has_written = bytes(frame[datagram.data:datagram.counter]), False, False
        for logical, length, physical, kind in self.records():
            low, high = max(start, logical), min(end, logical + length)
            if high <= low:
                continue
            here, there, count = low - start, physical + low - logical, high - low
            if kind & 1 and datagram.command in READS:
                frame[datagram.data + here:datagram.data + here + count] = self.memory[there:there + count]
                has_read = True
            if kind & 2 and datagram.command in WRITES:
                self.memory[there:there + count] = come[here:here + count]
                has_written = True
        if has_read:
            self.given, self.reads = self.inputs(), self.reads + 1
        if has_read or has_written:
            both = datagram.command == LRW
            datagram.count((1 if has_read else 0) + ((2 if both else 1) if has_written else 0))

    def outputs(self):
        at, length = self.area(2)
        return bytes(self.memory[at:at + length])

    def inputs(self):
        at, length = self.area(1)
        return bytes(self.memory[at:at + length])

    def work(self):
        """The application: makes inputs of outputs."""
        at, length = self.area(1)
        outputs = self.outputs()
        for k in range(length):
            self.memory[at + k] = (outputs[k % len(outputs)] + 1 if outputs else self.reads + k) & 0xFF


def passed(slaves, frame):
    """A frame as it comes back of a line of slaves."""
    found = datagrams(frame)
    for slave in slaves:
        for datagram in found:
            slave.step(datagram)
        slave.work()
    if found and slaves:
        frame[6] |= 2
        frame[found[0].at + 8] |= 1
    return frame


def tell(slaves, count):
    print(f"frames {count}")
    for slave in slaves:
        print(f"outputs {slave.station()} {slave.outputs().hex()}")
        print(f"inputs {slave.station()} {slave.given.hex()}")
    sys.stdout.flush()


class Ended(Exception):
    """SIGTERM came."""


def end(_signal, _frame):
    raise Ended


def main():
    words = argparse.ArgumentParser(description=__doc__, formatter_class=argparse.RawDescriptionHelpFormatter)
    words.add_argument("interface")
    words.add_argument("slaves", type=int)
    words.add_argument("--away", type=int)
    words.add_argument("--after", type=int, default=0)
    words.add_argument("--spoil", choices=("lose", "bend", "swap", "double", "hold"))
    told = words.parse_args()
    slaves, count, behind, held = [Slave() for _ in range(told.slaves)], 0, None, []
    line = socket.socket(socket.AF_PACKET, socket.SOCK_RAW, socket.htons(ETHERCAT))
    line.bind((told.interface, ETHERCAT))
    signal.signal(signal.SIGTERM, end)
    print("ready", flush=True)
    try:
        while True:
            frame = bytearray(line.recv(2048))
            is_away = told.away is not None and told.after <= count
            there = [it for place, it in enumerate(slaves) if not (is_away and place == told.away)]
            spoilt = told.spoil if count == told.after else None
            passed(there, frame)
            if spoilt == "bend":
                frame[ADDRESS] ^= 1
            is_left_out = told.spoil == "double" and count == told.after + 1
            if told.spoil == "hold" and 0 <= count - told.after < HELD:
                held.append(frame)
                for it in held if len(held) == HELD else []:
                    line.send(it)
            elif spoilt in (None, "bend", "double") and not is_left_out:
                line.send(frame)
            if spoilt == "double":
                line.send(frame)
            if behind is not None:
                line.send(behind)
            behind = frame if spoilt == "swap" else None
            count += 1
    except Ended:
        tell(slaves, count)


if __name__ == "__main__":
    main()
