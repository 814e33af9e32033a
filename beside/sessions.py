"""Row files to play beside each other, made from a fixed seed.

First come texts written down here, at and next to every boundary of the rules;
then random ones: short sessions, full logs, long programmes that are reordered
and taken back, rows of 1,024 boxes, random parameters, and good texts with a few
bytes changed. What a text should print is not known here.
"""

import random
from itertools import islice
from math import gcd

LONGEST_TEXT = 32_768
MOST_BOXES = 1_024
LOG_PLACES = 256
IDENTITY = sum(i * 8**i for i in range(8))


def text_of(*lines):
    """A text of lines in which a space stands for a tab."""
    return "".join(line + "\n" for line in lines).replace(" ", "\t").encode("latin-1")


def line_of(word, numbers):
    """A word and numbers, parted by spaces."""
    return " ".join([word, *map(str, numbers)])


# Worlds: a heading with its codes. Every world is a heading line, a function that
# draws a code, and a function that draws a kind that some carrier may have.


def cap_world(rng):
    """Capacities up to a bound, so that kinds recur."""
    top = rng.choice([1, 2, 4, 9, 255])

    def code():
        capacity = rng.randint(1, top)
        return 256 * capacity + rng.randint(0, capacity)

    return "cap", code, lambda: rng.randint(1, top)


def perm_world(rng):
    """Permutations that move the first few of eight places."""
    moved = rng.choice([2, 3, 5, 8])

    def code():
        images = rng.sample(range(moved), moved) + list(range(moved, 8))
        return sum(image * 8**i for i, image in enumerate(images))

    return "perm", code, lambda: 0


def units(m):
    """The numbers below m without a common divisor with m."""
    return [a for a in range(m) if gcd(a, m) == 1]


def aff_world(rng):
    """Two maps with a common fixed point, or two translations: both pairs commute."""
    m = rng.choice([1, 2, 3, 7, 10, 12, 360, 65_521, 65_535])
    a, c = rng.choice(units(m)), rng.choice(units(m))
    if rng.random() < 0.2:
        a, c, b, d = 1 % m, 1 % m, rng.randrange(m), rng.randrange(m)
    else:
        fixed = rng.randrange(m)
        b, d = fixed * (1 - a) % m, fixed * (1 - c) % m
    return line_of("aff", [m, a, b, c, d]), lambda: rng.randrange(m), lambda: 0


def phase_world(rng):
    """Kinds up to a bound, so that kinds recur, with phases of every size."""
    m, top = rng.choice([1, 2, 3, 10, 509, 65_535]), rng.choice([1, 3, 6, 255])

    def code():
        return 65_536 * rng.randint(1, top) + rng.randrange(m)

    return line_of("phase", [m]), code, lambda: rng.randint(1, top)


def world(rng):
    """One of the four maps, seen from either side."""
    name, code, kind = rng.choice([cap_world, perm_world, aff_world, phase_world])(rng)
    return f"map {rng.choice('LR')} {name}", code, kind


# Random sessions.


def reorderings(rng, kind, held, count):
    """Exchanges and raises in a log of so many carriers, a few past its end."""
    for _ in range(count):
        letter = rng.choice("XXXYYYN")
        near = rng.choice([rng.randrange(held + 1), max(0, held - 2), max(0, held - 1)])
        yield f"N {kind()}" if letter == "N" else f"{letter} {near}"


def short(rng):
    """Up to forty commands of every letter over a few boxes."""
    heading, code, kind = world(rng)
    lines = [heading, line_of("row", [code() for _ in range(rng.choice([0, 1, 2, 5, 12]))])]
    held = 0
    for _ in range(rng.randint(0, 40)):
        letter = rng.choice("SSSSBBXXYYNNP")
        if letter == "S":
            lines.append(f"S {code()}")
            held += 1
        elif letter == "B":
            lines.append("B")
            held = max(0, held - 1)
        elif letter == "P":
            lines.append("P")
        else:
            lines.extend(reorderings(rng, kind, held, 1))
    return text_of(*lines)


def full_log(rng):
    """More sweeps than the log has places, with take-backs at the full log."""
    heading, code, kind = world(rng)
    lines = [heading, line_of("row", [code() for _ in range(rng.randint(0, 3))])]
    lines += [f"S {code()}" for _ in range(LOG_PLACES + rng.randint(-1, 3))]
    for _ in range(rng.randint(1, 12)):
        lines += rng.choice([["B"], ["P"], ["B", "B"], [f"S {code()}"] * 3, [f"X {LOG_PLACES - 2}"],
                             [f"Y {LOG_PLACES - 1}"], [f"X {LOG_PLACES}"], [f"N {kind()}"]])
    return text_of(*lines)


def programme(rng):
    """Two hundred sweeps, reordered by X, Y and N, then taken back."""
    heading, code, kind = world(rng)
    lines = [heading, line_of("row", [code() for _ in range(rng.choice([1, 2, 6]))])]
    held = rng.randint(190, 210)
    lines += [f"S {code()}" for _ in range(held)] + ["P"]
    lines += [*reorderings(rng, kind, held, rng.randint(40, 120)), "P"]
    lines += ["B"] * (held // 2) + ["P", *reorderings(rng, kind, held - held // 2, 20), "P"]
    lines += ["B"] * (held - held // 2 + rng.randint(0, 1)) + ["P"]
    return text_of(*lines)


def long_row(rng):
    """A few sweeps over a row of about 1,024 boxes."""
    heading, code, kind = world(rng)
    lines = [heading, line_of("row", [code() for _ in range(rng.choice([1_000, 1_023, 1_024]))])]
    held = rng.randint(1, 8)
    lines += [f"S {code()}" for _ in range(held)] + ["P"]
    lines += [*reorderings(rng, kind, held, 5), "P"] + ["B"] * held + ["P"]
    return text_of(*lines)


def parameters(rng):
    """Small affine parameters of every sort, mostly unlawful."""
    m = rng.randint(0, 8)
    a, b, c, d = (rng.randint(0, m) for _ in range(4))
    if rng.random() < 0.7:
        a, c = rng.choice(units(m) or [0]), rng.choice(units(m) or [0])
    heading = line_of(f"map {rng.choice('LR')} aff", [m, a, b, c, d])
    return text_of(heading, line_of("row", [0, m - 1] if m else [0]), "S 0", "S 0", "X 0", "P", "B")


def changed(rng):
    """A good text with one to three edits of bytes, fields or lines."""
    text = short(rng)
    for _ in range(rng.choice([1, 1, 2, 3])):
        text = rng.choice([byte_changed, byte_changed, line_changed])(rng, text)
    return text


def byte_changed(rng, text):
    """One byte replaced, inserted, struck or doubled."""
    at = rng.randrange(len(text) + 1)
    new = bytes([rng.choice(b"\t\t\n\n\r 00123456789SBXYNPTLRmaprowcfes-+\x00\xff")])
    before, here, after = text[:at], text[at:at + 1], text[at + 1:]
    return before + rng.choice([new + after, new + here + after, after, here + here + after])


def line_changed(rng, text):
    """One line struck, doubled, cut short, given one more field, or moved."""
    lines = text.split(b"\n")
    at = rng.randrange(len(lines))
    line = lines[at]
    field = rng.choice([b"", b"0", b"01", b"7", b"256", b"4294967295", b"4294967296"])
    edit = rng.choice(["strike", "double", "cut", "field", "move", "last"])
    if edit == "strike":
        del lines[at]
    elif edit == "double":
        lines.insert(at, line)
    elif edit == "cut":
        lines[at] = line[:rng.randrange(len(line) + 1)]
    elif edit == "field":
        lines[at] = line + b"\t" + field
    elif edit == "move":
        lines.insert(rng.randrange(len(lines)), lines.pop(at))
    else:
        lines[at] = line.rpartition(b"\t")[0] + b"\t" + field
    return b"\n".join(lines)


# Texts at the boundaries.

ODD_NUMBERS = [
    "", "0", "00", "000", "01", "007", "0256", "4294967294", "4294967295", "4294967296", "4294967297",
    "4294967552", "4294967305", "9999999999", "10000000000", "18446744073709551615",
    "18446744073709551616", "18446744073709551872", "1" * 400, "0" * 400, "-1", "+1", "1.0", "1e2",
    "0x1", "256\r", "\r", "256\0", "\xb2", "1_0", "A", "/", ":", "1:", "1/", "257,",
]
NUMBER_PLACES = [
    ["map L cap", "row {}", "P"],
    ["map R cap", "row 256 {} 257", "P"],
    ["map L cap", "row 256 257", "S {}", "P"],
    ["map L cap", "row 256", "S 257", "S 512", "X {}"],
    ["map R cap", "row 256", "S 257", "S 512", "Y {}"],
    ["map L cap", "row 256", "S 257", "S 512", "N {}"],
    ["map L phase {}", "row 65536", "S 131072", "P"],
    ["map L aff {} 1 0 1 0", "row 0", "S 0", "P"],
    ["map R aff 10 {} 0 1 0", "row 0", "S 0", "P"],
    ["map L aff 10 1 {} 1 0", "row 0", "S 0", "P"],
    ["map R aff 10 1 0 {} 0", "row 0", "S 0", "P"],
    ["map L aff 10 1 0 1 {}", "row 0", "S 0", "P"],
]
CODES = {
    "cap": [0, 1, 255, 256, 257, 258, 511, 512, 513, 514, 515, 1_285, 1_286, 65_279, 65_280, 65_535,
            65_536, 65_792, 65_793, 4_294_967_295],
    "perm": [0, IDENTITY - 1, IDENTITY, IDENTITY + 1, IDENTITY + 7, 342_391, 342_390, 8**8 - 1, 8**8,
             8**8 + IDENTITY, 4_294_967_295],
    "aff 1 0 0 0 0": [0, 1],
    "aff 10 3 5 7 5": [0, 9, 10, 65_536, 4_294_967_295],
    "aff 65535 65534 65534 65534 65534": [0, 65_533, 65_534, 65_535, 65_536],
    "phase 1": [65_535, 65_536, 65_537, 131_072, 131_073],
    "phase 10": [0, 9, 65_535, 65_536, 65_545, 65_546, 131_072, 16_711_680, 16_711_689, 16_711_690,
                 16_777_216, 4_294_967_295],
    "phase 65535": [65_534, 131_070, 131_071, 16_777_214, 16_777_215, 16_777_216],
}
PARAMETERS = [
    "cap", "perm", "cap 1", "perm 8", "phase", "phase 0", "phase 1", "phase 65535", "phase 65536",
    "phase 65546", "phase 4294967295", "phase 4294967296", "phase 10 10", "aff", "aff 10 3 5 7",
    "aff 10 3 5 7 5", "aff 10 3 5 7 1", "aff 10 3 5 7 5 5", "aff 0 0 0 0 0", "aff 1 0 0 0 0",
    "aff 1 1 0 0 0", "aff 1 0 1 0 0", "aff 1 0 0 1 0", "aff 1 0 0 0 1", "aff 2 1 0 1 1", "aff 2 0 0 1 0",
    "aff 10 2 0 1 0", "aff 10 1 0 5 0", "aff 10 0 0 1 0", "aff 10 1 0 0 0", "aff 10 10 0 1 0",
    "aff 10 11 0 1 0", "aff 10 1 10 1 0", "aff 10 1 0 11 0", "aff 10 1 0 1 10", "aff 9 2 0 2 0",
    "aff 9 2 1 2 1", "aff 9 2 1 5 4", "aff 9 2 1 5 3", "aff 9 5 3 2 1", "aff 9 3 0 1 0", "aff 9 1 0 6 0",
    "aff 65535 65534 65534 65534 65534", "aff 65535 1 65534 1 65534", "aff 65535 1 65535 1 0",
    "aff 65535 3 0 1 0", "aff 65536 1 0 1 0", "aff 65537 1 0 1 0", "aff 65546 3 5 7 5",
    "aff 4294967295 1 0 1 0", "aff 10 4294967295 0 1 0", "aff 10 3 5 7 05", "aff 10 4 5 7 05",
    "aff 10 4 5 7 4294967296", "aff  3 5 7 5", "aff 10 3 5 7 ", "aff 10 3 5 7 5 ", "cap ", "perm ",
    "phase ", "phase 10 ", "phase 010", "phase 00", "Cap", "caps", "ca", "", "cap\r", "aff\t", "phases 10",
]
LINES = [
    "", " ", "S", "S ", "S 256 ", "S 256 256", "S  256", " S 256", "s 256", "SS 256", "S256", "B", "B ",
    "B 0", "BB", "b", "P", "P ", "P 1", "PP", "p", "X", "X ", "X 0 ", "X 0 1", "Y", "Y ", "Y 0 ", "Y 0 1",
    "N", "N ", "N 1 ", "N 1 1", "N 01 1", "T 1", "T", "Z", "A", "?", "map L cap", "row 256", "row", "map",
    "S 0", "S 00", "S 0 00", "S 258", "S 4294967295", "S 4294967296", "X 00", "Y 01", "B\r", "P\r",
    "S 256\r", "\r", "\0", "\xff", "#", "S\xa0256", "R", "L", "M 0", "O", "Q", "W 1", "C 256",
]
RAW = [
    b"", b"\n", b"\n\n", b"\t", b"\t\n", b"m", b"map", b"map\n", b"map\t\n", b"map\tL\n", b"map\tL\t\n",
    b"map\tL\tcap", b"map\tL\tcap\n", b"map\tL\tcap\t\n", b"map\tL\tcap\n\n", b"map\tL\tcap\nrow",
    b"map\tL\tcap\nrow\n", b"map\tL\tcap\nrow\t\n", b"map\tL\tcap\nrow\t\t\n", b"map\tL\tcap\nrow\n\n",
    b"map\tL\tcap\nrow\t256\t\n", b"map\tL\tcap\nrow\t\t256\n", b"map\tL\tcap\nrow\t256\t\t257\n",
    b"map\tL\tcap\nrow\t256", b"map\tL\tcap\nrow\t256\nP", b"map\tL\tcap\nrow\t256\nB\nS\t256",
    b"map\tL\tcap\nrow\t256\nS\t01", b"map\tL\tcap\nrow\t01", b"map\tL\tcap\nrow\t0",
    b"map\tL\tphase\t0", b"map\tL\tcap\nrow\nP\n\n", b"map\tL\tcap\nrow\n\nP\n", b"\nmap\tL\tcap\nrow\n",
    b"map\tL\tcap\n\nrow\n", b"map\tL\tcap\r\nrow\t256\r\nP\r\n", b"map\tL\tcap\nrow\t256\r\nP\n",
    b"map\tL\tcap\nrow\r\n", b"map\tL\tcap\nrow\nP\r\n", b"map\tL\tcap\rrow\rP\r", b"map L cap\nrow\n",
    b"map\tL\tcap\nrow 256\n", b"map\tL\tcap\nrow\t256 257\n", b"map\tL\tcap\nrow\t 256\n",
    b"map\tl\tcap\nrow\n", b"map\tr\tcap\nrow\n", b"map\tM\tcap\nrow\n", b"map\tLR\tcap\nrow\n",
    b"map\t\tcap\nrow\n", b"map\tcap\nrow\n", b"map\t\tL\tcap\nrow\n", b"\tmap\tL\tcap\nrow\n",
    b"Map\tL\tcap\nrow\n", b"maps\tL\tcap\nrow\n", b"row\t256\nmap\tL\tcap\n", b"row\nrow\n",
    b"map\tL\tcap\nmap\tL\tcap\n", b"map\tL\tcap\nmap\tL\tcap\nrow\n", b"map\tL\tcap\nP\n",
    b"map\tL\tcap\nS\t256\n", b"map\tL\tcap\nRow\n", b"map\tL\tcap\nrows\n", b"map\tL\tcap\n\trow\n",
    b"map\tL\tcap\nrow\t256\nrow\t256\n", b"map\tL\tcap\nrow\t256\nmap\tL\tcap\n", b"P\n", b"S\t256\n",
    b"map\tL\tcap\nrow\t0\nT\n", b"map\tL\tphase\t0\nrow\t01\n", b"map\tL\tphase\t01\nrow\nT\n",
    b"map\tL\tcap\nrow\t0\t01\n", b"map\tL\tcap\nrow\t01\t0\n", b"map\tL\tcap\nrow\t0\t256",
    b"map\tL\tcap\nrow\t256\nS\t0\nT\n", b"map\tL\tcap\nrow\t256\nT\nS\t0\n", b"\xef\xbb\xbfmap\tL\tcap\nrow\n",
    b"map\tL\tcap\nrow\t256\nS\t0", b"map\tL\tcap\nrow\t256\nS\t256\nX\t0\nS\t0\n", b"map\tL\tcap\nrow\t256\x00\n",
]


def of_length(length, last):
    """A text of good lines, of a given length, that ends with a given line."""
    opening, pair = b"map\tL\tcap\nrow\n", b"S\t256\nB\n"
    pairs, rest = divmod(length - len(opening) - len(last) - len(pair), len(pair))
    rest += len(pair)
    filling = b"B\n" * (rest // 2) if rest % 2 == 0 else b"X\t10\n" + b"B\n" * ((rest - 5) // 2)
    return opening + pair * pairs + filling + last


def of_row(count, changes=()):
    """A text whose row has so many codes, some of them changed."""
    codes = [256 + i % 2 for i in range(count)]
    for place, code in changes:
        codes[place] = code
    return text_of("map L cap", line_of("row", codes), "S 65280", "P", "B", "P")


def lengths_and_counts():
    """Texts next to the longest and rows next to the most boxes."""
    for length in (LONGEST_TEXT - 1, LONGEST_TEXT, LONGEST_TEXT + 1, LONGEST_TEXT + 2, 65_536, 200_000):
        for last in (b"B\n", b"P\n", b"B", b"T\n", b"\n", b"S\t0\n", b"S\t01\n"):
            yield of_length(length, last)
    for length in (LONGEST_TEXT, LONGEST_TEXT + 1):
        yield from (b"\n" * length, b"m" * length, b"\t" * length, b"map\tL\tcap\nrow\t" + b"1" * (length - 15) + b"\n")
        yield b"map\tL\tcap\nrow" + b"\t" * (length - 14) + b"\n"
    for count in (0, 1, MOST_BOXES - 1, MOST_BOXES, MOST_BOXES + 1, MOST_BOXES + 2, 2 * MOST_BOXES, 6_000):
        yield of_row(count)
        for place in {0, count // 2, count - 1, min(count - 1, MOST_BOXES)} if count else ():
            yield from (of_row(count, [(place, code)]) for code in (0, 258, "01", "", 4_294_967_296))
    yield of_row(MOST_BOXES, [(0, 0), (1, "00")])
    yield of_row(MOST_BOXES + 1, [(0, 0), (MOST_BOXES, "00")])
    yield of_row(MOST_BOXES)[:-1]
    yield of_row(MOST_BOXES + 1)[:-1]
    yield of_row(MOST_BOXES) + b"P\n" * 200


def texts_at_boundaries():
    """Every text fault at and next to its boundary."""
    for lines in NUMBER_PLACES:
        yield from (text_of(*(line.format(number) for line in lines)) for number in ODD_NUMBERS)
    for name, codes in CODES.items():
        good = {"cap": 256, "perm": IDENTITY, "aff": 0, "phase": 65_536}[name.split()[0]]
        for code in codes:
            yield text_of(f"map L {name}", f"row {good} {code}", f"S {good}", "P")
            yield text_of(f"map R {name}", f"row {good}", f"S {code}", "P")
    for name in PARAMETERS:
        yield text_of(f"map R {name}", "row", "P")
        yield text_of(f"map L {name}", "row 01", "T")
    for line in LINES:
        yield text_of("map L cap", "row 256 257", "S 256", line, "P")
        yield text_of("map L cap", "row 256 257", line)
    yield from RAW
    yield from lengths_and_counts()


def refusals_at_boundaries():
    """Every refusal of a command, on every map and side, at and next to its boundary."""
    rng = random.Random(9)
    places = [0, 1, 2, 3, 255, 256, 65_535, 65_536, 4_294_967_294, 4_294_967_295]
    kinds = [0, 1, 2, 3, 4, 255, 256, 257, 258, 259, 65_537, 4_294_967_295]
    worlds = {
        "cap": [256, 513, 771, 512], "perm": [IDENTITY - 7, 342_391, IDENTITY - 56, IDENTITY],
        "aff 11 2 8 4 2": [2, 4, 9, 0], "phase 10": [65_537, 131_076, 196_609, 65_540],
    }
    for side in "LR":
        for name, codes in worlds.items():
            row = line_of("row", codes[1:])
            for held in range(5):
                sweeps = [f"S {code}" for code in codes[:held]]
                for letter, arguments in (("X", places), ("Y", places), ("N", kinds)):
                    tried = [f"{letter} {argument}" for argument in arguments]
                    yield text_of(f"map {side} {name}", row, *sweeps, *tried, "P", *["B"] * (held + 2), "P")
            for held in (LOG_PLACES - 1, LOG_PLACES, LOG_PLACES + 1):
                sweeps = [f"S {rng.choice(codes)}" for _ in range(held)]
                ends = [f"X {LOG_PLACES - 2}", f"Y {LOG_PLACES - 1}", f"N {rng.randint(1, 3)}", "B", sweeps[0], "P"]
                yield text_of(f"map {side} {name}", row, *sweeps, *ends, sweeps[0], *["B"] * (LOG_PLACES + 1), "P")
            boxes = line_of("row", [rng.choice(codes) for _ in range(MOST_BOXES)])
            sweeps = [f"S {rng.choice(codes)}" for _ in range(24)]
            yield text_of(f"map {side} {name}", boxes, *sweeps, "P", "X 3", "Y 7", "N 2", *["B"] * 24, "P")


def largest():
    """A full row with a full log, the widest lines, and the longest output."""
    rng = random.Random(16)
    heading, codes = "map L phase 65535", [65_536 * kind + 65_534 for kind in (200, 254, 255)]
    row = line_of("row", [rng.choice(codes) for _ in range(MOST_BOXES)])
    sweeps = [f"S {rng.choice(codes)}" for _ in range(LOG_PLACES + 1)]
    yield text_of(heading, row, *sweeps, "P", "N 255", "N 200", *["B"] * (LOG_PLACES + 1), "P")
    opening = text_of(heading, row)
    yield opening + b"P\n" * ((LONGEST_TEXT - len(opening)) // 2)
    opening = text_of(heading, "row", *sweeps)
    yield opening + b"N\t200\nN\t255\n" * ((LONGEST_TEXT - len(opening)) // 12)


RANDOM = [(short, 50), (changed, 34), (parameters, 6), (full_log, 3), (programme, 4), (long_row, 3)]


def all_sessions(seed):
    """Pairs of a sort and a text, without end: the boundaries first, then random ones."""
    yield from (("text boundary", text) for text in texts_at_boundaries())
    yield from (("refusal boundary", text) for text in refusals_at_boundaries())
    yield from (("largest", text) for text in largest())
    rng = random.Random(seed)
    makers, weights = zip(*RANDOM)
    while True:
        maker = rng.choices(makers, weights)[0]
        yield maker.__name__.replace("_", " "), maker(rng)


def sessions(count=3_000, seed=1):
    """The first so many sessions."""
    return islice(all_sessions(seed), count)
