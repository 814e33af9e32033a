"""The plain book: a second player of row files, written apart from the proved one.

It reads one row file from standard input and prints the lines that are due.
The book keeps the filled row and a list of carriers, and nothing else. The row
as it now stands and the outgoing carriers are found anew whenever they are
asked for, by sweeping every carrier of the list over the filled row.
"""

import sys
from math import gcd

LONGEST_TEXT = 32_768
MOST_BOXES = 1_024
LOG_PLACES = 256
LARGEST_NUMBER = 4_294_967_295


class Fault(Exception):
    """A fault of the text: its number and, once known, its line."""

    def __init__(self, number, line=None):
        super().__init__(number, line)
        self.number = number
        self.line = line


class Refusal(Exception):
    """A command that the book refuses: the number of the refusal."""

    def __init__(self, number):
        super().__init__(number)
        self.number = number


# The four maps. Elements are plain tuples or numbers; a map only ever meets
# elements that it made from codes, so each of them belongs.


class Cap:
    """Boxes of a capacity 1 to 255 holding some balls: (capacity, balls)."""

    returning = True

    def is_code(self, number):
        capacity, balls = divmod(number, 256)
        return 1 <= capacity <= 255 and balls <= capacity

    def element(self, code):
        return divmod(code, 256)

    def code(self, element):
        capacity, balls = element
        return 256 * capacity + balls

    def kind(self, element):
        return element[0]

    def cross(self, left, right):
        """The capacities change sides; balls above a capacity are passed on."""
        (m, c), (l, b) = left, right
        s = b + c
        p = max(0, s - l)
        q = max(0, s - m)
        return (l, c + q - p), (m, b + p - q)

    uncross = cross


class Perm:
    """Permutations of 0 to 7, each a tuple of its eight images."""

    returning = False

    def element(self, code):
        return tuple(code // 8**i % 8 for i in range(8))

    def is_code(self, number):
        return number < 8**8 and sorted(self.element(number)) == list(range(8))

    def code(self, element):
        return sum(image * 8**i for i, image in enumerate(element))

    def kind(self, element):
        return 0

    def cross(self, x, y):
        """y and the z that sends y(i) to y(x(i))."""
        z = [0] * 8
        for i in range(8):
            z[y[i]] = y[x[i]]
        return y, tuple(z)

    def uncross(self, u, v):
        """The x with u(x(i)) = v(u(i)), and u."""
        return tuple(u.index(v[u[i]]) for i in range(8)), u


class Aff:
    """Numbers below m, exchanged by f(y) = ay + b and g(x) = cx + d modulo m."""

    returning = False

    def __init__(self, m, a, b, c, d):
        if not 1 <= m <= 65_535 or max(a, b, c, d) >= m:
            raise Fault(4)
        if gcd(a, m) != 1 or gcd(c, m) != 1 or (a * d + b - c * b - d) % m != 0:
            raise Fault(4)
        self.m, self.a, self.b, self.c, self.d = m, a, b, c, d
        self.inverse_a, self.inverse_c = pow(a, -1, m), pow(c, -1, m)

    def is_code(self, number):
        return number < self.m

    def element(self, code):
        return code

    def code(self, element):
        return element

    def kind(self, element):
        return 0

    def cross(self, x, y):
        """f(y) and g(x)."""
        return (self.a * y + self.b) % self.m, (self.c * x + self.d) % self.m

    def uncross(self, u, v):
        """The x with g(x) = v and the y with f(y) = u."""
        return (v - self.d) * self.inverse_c % self.m, (u - self.b) * self.inverse_a % self.m


class Phase:
    """Particles of a kind 1 to 255 with a phase below m: (kind, phase)."""

    returning = True

    def __init__(self, m):
        if not 1 <= m <= 65_535:
            raise Fault(4)
        self.m = m

    def is_code(self, number):
        kind, phase = divmod(number, 65_536)
        return 1 <= kind <= 255 and phase < self.m

    def element(self, code):
        return divmod(code, 65_536)

    def code(self, element):
        kind, phase = element
        return 65_536 * kind + phase

    def kind(self, element):
        return element[0]

    def cross(self, left, right):
        """Unequal kinds change sides; the one going right loses twice the smaller kind."""
        (k, p), (l, q) = left, right
        if k == l:
            return left, right
        t = 2 * min(k, l)
        return (l, (q + t) % self.m), (k, (p - t) % self.m)

    uncross = cross


class Mirror:
    """The map below, seen with left and right traded."""

    def __init__(self, below):
        self.below = below
        self.returning = below.returning
        self.is_code, self.element = below.is_code, below.element
        self.code, self.kind = below.code, below.kind

    def cross(self, x, y):
        left, right = self.below.cross(y, x)
        return right, left

    def uncross(self, x, y):
        left, right = self.below.uncross(y, x)
        return right, left


# Reading. A text is judged whole, line by line, before anything is played.
# Within a line: form (2), numbers (3), parameters (4), count (6), codes (5).

MAPS = {b"cap": (Cap, 0), b"perm": (Perm, 0), b"aff": (Aff, 5), b"phase": (Phase, 1)}
COMMAND_FIELDS = {b"S": 1, b"B": 0, b"X": 1, b"Y": 1, b"N": 1, b"P": 0}


def read_number(field):
    """The number that a field writes in decimal, without a leading zero."""
    if not field.isdigit() or len(field) > len(str(LARGEST_NUMBER)):
        raise Fault(3)
    if field != b"0" and field.startswith(b"0") or int(field) > LARGEST_NUMBER:
        raise Fault(3)
    return int(field)


def read_code(exchange, number):
    """The element of a code of the map."""
    if not exchange.is_code(number):
        raise Fault(5)
    return exchange.element(number)


def read_heading(fields):
    """The map that line 1 names."""
    if len(fields) < 3 or fields[0] != b"map" or fields[1] not in (b"L", b"R"):
        raise Fault(2)
    word, side, name, *parameters = fields
    if name not in MAPS or len(parameters) != MAPS[name][1]:
        raise Fault(2)
    numbers = [read_number(field) for field in parameters]
    exchange = MAPS[name][0](*numbers)
    return Mirror(exchange) if side == b"R" else exchange


def read_row(exchange, fields):
    """The boxes that line 2 lists."""
    if fields[0] != b"row":
        raise Fault(2)
    numbers = [read_number(field) for field in fields[1:]]
    if len(numbers) > MOST_BOXES:
        raise Fault(6)
    return [read_code(exchange, number) for number in numbers]


def read_command(exchange, fields):
    """A letter with the carrier, place or kind that belongs to it, if any."""
    letter, *arguments = fields
    if letter not in COMMAND_FIELDS or len(arguments) != COMMAND_FIELDS[letter]:
        raise Fault(2)
    numbers = [read_number(field) for field in arguments]
    if letter == b"S":
        return letter, [read_code(exchange, numbers[0])]
    return letter, numbers


def read_text(text):
    """The map, the filled row and the commands of a text without fault."""
    if len(text) > LONGEST_TEXT:
        raise Fault(1, line=0)
    *lines, unended = text.split(b"\n")
    exchange, row, commands = None, [], []
    for place, line in enumerate(lines, start=1):
        fields = line.split(b"\t")
        try:
            if place == 1:
                exchange = read_heading(fields)
            elif place == 2:
                row = read_row(exchange, fields)
            else:
                commands.append(read_command(exchange, fields))
        except Fault as fault:
            raise Fault(fault.number, line=place) from None
    if unended or len(lines) < 2:
        raise Fault(2, line=len(lines) + 1)
    return exchange, row, commands


# Playing.


class Book:
    """The filled row and the list of carriers, oldest first."""

    def __init__(self, exchange, filled):
        self.exchange = exchange
        self.filled = filled
        self.carriers = []

    def swept(self):
        """The row that the carriers leave, swept in turn, and the outgoing carriers."""
        row, outgoing = list(self.filled), []
        for carrier in self.carriers:
            for i in range(len(row)):
                row[i], carrier = self.exchange.cross(carrier, row[i])
            outgoing.append(carrier)
        return row, outgoing

    def sweep(self, carrier):
        """Append a carrier; answer the code of the last outgoing one."""
        if len(self.carriers) >= LOG_PLACES:
            raise Refusal(7)
        self.carriers.append(carrier)
        row, outgoing = self.swept()
        return [self.exchange.code(outgoing[-1])]

    def take_back(self):
        """Strike the last carrier; answer its code."""
        if not self.carriers:
            raise Refusal(8)
        return [self.exchange.code(self.carriers.pop())]

    def exchange_by(self, rule, i):
        """Apply cross or uncross at place i, the newer carrier being the left one."""
        if i + 1 >= len(self.carriers):
            raise Refusal(9)
        newer, older = rule(self.carriers[i + 1], self.carriers[i])
        self.carriers[i + 1], self.carriers[i] = newer, older
        return [self.exchange.code(older), self.exchange.code(newer)]

    def exchange_at(self, i):
        """Cross the carriers of places i + 1 and i; answer the codes at i and i + 1."""
        return self.exchange_by(self.exchange.cross, i)

    def exchange_back(self, i):
        """Uncross the carriers of places i + 1 and i; answer the codes at i and i + 1."""
        return self.exchange_by(self.exchange.uncross, i)

    def lift(self, kind):
        """Exchange the newest carrier of a kind up to the newest place; answer all carriers."""
        if not self.exchange.returning:
            raise Refusal(10)
        places = [i for i, x in enumerate(self.carriers) if self.exchange.kind(x) == kind]
        if not places:
            raise Refusal(9)
        for i in range(places[-1], len(self.carriers) - 1):
            self.exchange_at(i)
        return [self.exchange.code(carrier) for carrier in self.carriers]

    def boxes(self):
        """The codes of the boxes as they now stand."""
        row, outgoing = self.swept()
        return [self.exchange.code(box) for box in row]


CALLS = {
    b"S": (b"S", Book.sweep),
    b"B": (b"B", Book.take_back),
    b"X": (b"X", Book.exchange_at),
    b"Y": (b"Y", Book.exchange_back),
    b"N": (b"N", Book.lift),
    b"P": (b"row", Book.boxes),
}


def line_of(word, numbers):
    """An output line: a word and numbers parted by tabs, ended by byte 10."""
    return b"\t".join([word, *(b"%d" % number for number in numbers)]) + b"\n"


def play(text):
    """All that is printed for a text."""
    try:
        exchange, row, commands = read_text(text)
    except Fault as fault:
        return line_of(b"!", [fault.line, fault.number])
    book, printed = Book(exchange, row), []
    for letter, arguments in commands:
        word, call = CALLS[letter]
        try:
            printed.append(line_of(word, call(book, *arguments)))
        except Refusal as refusal:
            printed.append(line_of(b"?", [refusal.number]))
    return b"".join(printed)


if __name__ == "__main__":
    sys.stdout.buffer.write(play(sys.stdin.buffer.read()))
