"""A program without what only a debugger reads."""
import struct

# Where the header of an ELF file for 64 bits says where the table of sections begins, and how many rows it has.
TABLE_AT, COUNT_AT = 0x28, 0x3C
# A row of the table: name, type, flags, address, offset, size, link, info, alignment, size of an entry.
ROW = struct.Struct("<IIQQQQIIQQ")
# The flag of a section that is loaded, and the type of one that takes no bytes of the file.
LOADED, EMPTY = 2, 8


def sections_of(program):
    """The rows of the table of sections."""
    (at,) = struct.unpack_from("<Q", program, TABLE_AT)
    _, count, _ = struct.unpack_from("<HHH", program, COUNT_AT - 2)
    return [ROW.unpack_from(program, at + ROW.size * number) for number in range(count)]


def name_at(program, names, row):
    """The name of a section."""
    begin = names[4] + row[0]
    return program[begin : program.index(b"\0", begin)]


def without_symbols(program):
    """The bytes of a program for 64-bit Linux with the sections that are loaded alone, and a table of them with their
    names. What isn't such a program is left as it is."""
    try:
        return rebuilt(program) if program[:6] == b"\x7fELF\x02\x01" else program
    except (struct.error, ValueError, IndexError):
        return program


def rebuilt(program):
    """The same of an ELF file for 64 bits; an exception where its table of sections isn't whole."""
    rows = sections_of(program)
    (at,) = struct.unpack_from("<H", program, COUNT_AT + 2)
    kept = [row for row in rows[1:] if row[2] & LOADED]
    place = {number: 1 + kept.index(row) for number, row in enumerate(rows) if row in kept}
    end = max(row[4] + (0 if row[1] == EMPTY else row[5]) for row in kept)
    names, made = b"\0", [ROW.pack(*[0] * 10)]
    for row in kept:
        link = place.get(row[6], 0)
        info = place.get(row[7], 0) if row[2] & 0x40 else row[7]
        made.append(ROW.pack(len(names), *row[1:6], link, info, *row[8:]))
        names += name_at(program, rows[at], row) + b"\0"
    made.append(ROW.pack(len(names), 3, 0, 0, end, len(names) + 10, 0, 0, 1, 0))
    names += b".shstrtab\0"
    body = bytearray(program[:end] + names)
    body += bytes(-len(body) % 8)
    struct.pack_into("<Q", body, TABLE_AT, len(body))
    struct.pack_into("<HH", body, COUNT_AT, len(made), len(made) - 1)
    return bytes(body) + b"".join(made)
