"""Lines of sync units made by a fixed generator, the same on every machine."""

# Lists of periods; the least common multiple of each is the hyperperiod.
PERIODS = {
    10: [1, 2, 5, 10],
    12: [1, 2, 3, 4, 6, 12],
    16: [1, 2, 4, 8, 16],
    20: [1, 2, 4, 5, 10, 20],
    24: [1, 2, 3, 4, 6, 8, 12, 24],
    40: [1, 2, 4, 5, 8, 10, 20, 40],
    60: [1, 2, 3, 4, 5, 6, 10, 12, 15, 20, 30, 60],
    240: [2, 3, 4, 5, 6, 8, 10, 12, 15, 16, 20, 24, 30, 40, 48, 60],
    720: [2, 3, 4, 5, 6, 8, 9, 10, 12, 15, 16, 18, 20, 24, 30, 36, 40, 45, 48, 60],
    1020: [2, 3, 4, 5, 6, 10, 12, 15, 17, 20, 30, 34, 51, 60],
}


class Numbers:
    """The numbers of a linear congruence modulo 2 to the power 64 (Knuth's multiplier)."""

    def __init__(self, seed):
        self.state = seed

    def below(self, limit):
        self.state = (self.state * 6364136223846793005 + 1442695040888963407) % 2**64
        return (self.state >> 33) % limit


def line_of(seed, units, slots, hyper, most_bytes):
    """A line: its slots, and the bytes and the period of each unit. Its hyperperiod divides `hyper`."""
    numbers = Numbers(seed)
    made = []
    for _ in range(units):
        period = PERIODS[hyper][numbers.below(len(PERIODS[hyper]))]
        made.append((1 + numbers.below(most_bytes), period))
    return slots, made


def text_of(line, places=None):
    """The unit text of a line, with these places if there are any."""
    slots, units = line
    text = ["tick_ns = 1000000", "slots = %d" % slots]
    for number, (size, period) in enumerate(units):
        name = "u%d" % number
        text += ["", "[[unit]]", 'name = "%s"' % name, "period = %d" % period]
        if places is not None and name in places:
            text += ["phase = %d" % places[name][0], "slot = %d" % places[name][1]]
        text += ["", "[[unit.slave]]", "station = %d" % (1001 + number), "out_bytes = %d" % size, "in_bytes = 0"]
    return "\n".join(text) + "\n"


def places_of(answer):
    """The phase and the slot of each unit in the text of a plan."""
    places = {}
    for words in (row.split() for row in answer.split("\n")):
        if len(words) == 6 and words[0] == "unit":
            places[words[1]] = (int(words[3]), int(words[5]))
    return places


# The lines of the benchmark: the first six end with a proof within a million nodes, the others don't.
FIXED = [
    ("16 units, H 10", line_of(7, 16, 2, 10, 400)),
    ("16 units, H 10, again", line_of(32, 16, 2, 10, 400)),
    ("12 units, H 10", line_of(1, 12, 2, 10, 400)),
    ("12 units, H 20", line_of(46, 12, 3, 20, 600)),
    ("14 units, H 12", line_of(25, 14, 2, 12, 400)),
    ("20 units, H 240", line_of(18, 20, 2, 240, 500)),
    ("24 units, H 20", line_of(1, 24, 2, 20, 400)),
    ("32 units, H 12", line_of(2, 32, 3, 12, 300)),
    ("24 units, H 60", line_of(3, 24, 2, 60, 400)),
    ("40 units, H 40", line_of(4, 40, 8, 40, 600)),
    ("48 units, H 16", line_of(6, 48, 4, 16, 300)),
    ("36 units, H 720", line_of(9, 36, 4, 720, 400)),
    ("48 units, H 1020", line_of(10, 48, 8, 1020, 300)),
]

# 200 lines small enough to compare programs on: one for each seed.
SMALL = [
    ("line %d" % seed, line_of(
        seed,
        1 + Numbers(seed + 1000).below(12),
        1 + seed % 4,
        [10, 12, 16, 20, 24, 40, 60, 240][seed % 8],
        [60, 200, 400, 744, 1486][seed % 5]))
    for seed in range(200)
]
