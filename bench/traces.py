"""Traces, drawn from a seed. The traces of the kinds in MEASURED run to their end with no fault; those in DRAWN need not."""

import random
from math import gcd

MOST_BYTES = 32_768
MOST_PAGE = 32_768
LAST_SECOND = 16_777_216

HEADER = b"FWT\x00\x01"
ORDER = b"Q"
END = b"Z"


def number_of(n):
    return n.to_bytes(2, "big")


def signed(n, size):
    return n.to_bytes(size, "big", signed=True)


def enter(number, position, speed):
    return b"E" + number_of(number) + signed(position, 4) + signed(speed, 2)


def leave(number):
    return b"L" + number_of(number)


def steer(number, speed):
    return b"S" + number_of(number) + signed(speed, 2)


def advance(seconds, numerator=0, denominator=1):
    return b"A" + seconds.to_bytes(4, "big") + number_of(numerator) + number_of(denominator)


def line_length(seconds, numerator, denominator, numbers):
    """How many bytes an order line has: its length is the same in every order."""
    divisor = gcd(numerator, denominator)
    fraction = "" if numerator == 0 else f" {numerator // divisor}/{denominator // divisor}"
    return len(f"{seconds}{fraction}:\n") + sum(1 + len(str(number)) for number in numbers)


# The traces that are measured.


def empty(draw):
    """No record but the end: what it costs to start a program."""
    return HEADER + END


def crowded(draw):
    """64 vessels that all pass each other and then turn round, again and again."""
    numbers = draw.sample(range(1, 65_536), 64)
    # speeds more than 20 apart pass a lead of 12,000 in 600 seconds
    speeds = [-970 + 30 * i + draw.randrange(9) for i in range(64)]
    draw.shuffle(speeds)
    trace = bytearray(HEADER)
    for number, speed in zip(numbers, speeds):
        trace += enter(number, draw.randrange(12_000), -speed)
    second, page, sign = 600, 0, 1
    trace += advance(second)
    while True:
        # back to where all were level within 12,000, and as far beyond it
        part = b"".join(steer(number, sign * speed) for number, speed in zip(numbers, speeds))
        for step in range(1, 9):
            denominator = draw.randint(2, 1_000)
            part += advance(second + 150 * step - 1, draw.randrange(denominator), denominator)
        part += advance(second + 1_200)
        length = line_length(second + 1_200, 0, 1, numbers)
        if page + length <= MOST_PAGE:
            part += ORDER
            page += length
        if len(trace) + len(part) + 1 > MOST_BYTES:
            return bytes(trace) + END
        trace += part
        second += 1_200
        sign = -sign


def quiet(draw):
    """64 vessels that never meet, and advances of about 80 minutes."""
    numbers = draw.sample(range(1, 65_536), 64)
    trace = bytearray(HEADER)
    speeds = sorted(draw.randint(-1_000, 1_000) for _ in numbers)
    for place, (number, speed) in enumerate(zip(numbers, speeds)):
        trace += enter(number, 1_000 * place, speed)
    steps = (MOST_BYTES - len(trace) - 2) // 9
    for step in range(1, steps + 1):
        denominator = draw.randint(1, 1_000)
        trace += advance(LAST_SECOND // steps * step - 1, draw.randrange(denominator), denominator)
    return bytes(trace) + ORDER + END


def orders(draw):
    """Nine vessels and as many order lines as the page has room for, with an advance before each."""
    numbers = range(1, 10)
    trace = bytearray(HEADER)
    for number in numbers:
        trace += enter(number, draw.randint(-2_000, 2_000), draw.randint(-9, 9))
    page = 0
    for second in range(1, LAST_SECOND):
        denominator = draw.randint(1, 20)
        numerator = draw.randrange(denominator)
        page += line_length(second, numerator, denominator, numbers)
        if page > MOST_PAGE:
            return bytes(trace) + END
        trace += advance(second, numerator, denominator) + ORDER


def steers(draw):
    """64 vessels, and changes of speed, eight to an advance."""
    numbers = draw.sample(range(1, 65_536), 64)
    trace = bytearray(HEADER)
    for number in numbers:
        trace += enter(number, draw.randint(-50_000, 50_000), draw.randint(-500, 500))
    second = 0
    while True:
        part = b"".join(steer(draw.choice(numbers), draw.randint(-500, 500)) for _ in range(8))
        second += draw.randint(1, 4)
        part += advance(second)
        if len(trace) + len(part) + 2 > MOST_BYTES:
            return bytes(trace) + ORDER + END
        trace += part


def advances(draw):
    """64 vessels that meet now and then, and advances up to the last byte of a trace."""
    numbers = draw.sample(range(1, 65_536), 64)
    trace = bytearray(HEADER)
    for number in numbers:
        trace += enter(number, draw.randint(-100_000, 100_000), draw.randint(-100, 100))
    steps, rest = divmod(MOST_BYTES - len(trace) - 1, 9)
    for step in range(1, steps + 1):
        denominator = draw.randint(1, 1_000)
        trace += advance(step, draw.randrange(denominator), denominator)
    return bytes(trace) + ORDER * rest + END


def passing(draw, active, idle):
    """Two traces: vessels of which the active ones all pass each other within 600 seconds, and the idle ones stay far in front of
    them; and the same without the advance in which they pass. The first has a mend more for each pair of active ones."""
    numbers = draw.sample(range(1, 65_536), active + idle)
    positions = sorted(draw.sample(range(12_000), active))
    trace = bytearray(HEADER)
    for i in range(active):
        trace += enter(numbers[i], positions[i], 970 - 30 * i + draw.randrange(9))
    for i in range(idle):
        trace += enter(numbers[active + i], 50_000_000 + 1_000 * i, 0)
    return bytes(trace + advance(600) + END), bytes(trace + END)


# The traces that are compared.


class Random:
    """Calls that are mostly accepted: it keeps who is aboard and the clock, and leaves who is where to the programs."""

    def __init__(self, draw):
        self.draw = draw
        self.trace = bytearray(HEADER)
        self.aboard = []
        self.clock = (0, 0, 1)
        # few different positions and speeds give many meetings at one instant
        self.positions = draw.choice([5, 30, 1_000, 100_000, 100_000_000])
        self.speeds = draw.choice([1, 3, 10, 100, 1_000])
        self.most_number = draw.choice([9, 70, 1_000, 65_535])
        self.steps = draw.choice([1, 10, 1_000, 500_000])
        self.denominators = draw.choice([1, 2, 3, 12, 1_000])
        self.most_aboard = draw.choice([2, 5, 20, 64, 64])
        self.refused = draw.choice([0, 0, 0.003, 0.02])
        self.order_lines = draw.choice([0.05, 0.2, 0.5])

    def position(self):
        return self.draw.randint(-self.positions, self.positions)

    def speed(self):
        return self.draw.randint(-self.speeds, self.speeds)

    def number(self):
        return self.draw.randint(1, self.most_number)

    def advance_to(self, seconds, numerator, denominator):
        if (seconds, numerator) >= (LAST_SECOND, 1):
            seconds, numerator, denominator = LAST_SECOND, 0, self.draw.randint(1, 1_000)
        self.clock = (seconds, numerator, denominator)
        self.trace += advance(seconds, numerator, denominator)

    def add_advance(self):
        seconds, numerator, denominator = self.clock
        if self.draw.random() < 0.1:
            self.advance_to(seconds, numerator, denominator)
        elif self.draw.random() < 0.3 and seconds < LAST_SECOND:
            # later in the same second
            other = self.draw.randint(1, self.denominators)
            least = -(-numerator * other // denominator)
            if least < other:
                self.advance_to(seconds, self.draw.randrange(least, other), other)
        else:
            other = self.draw.randint(1, self.denominators)
            self.advance_to(seconds + self.draw.randint(1, self.steps), self.draw.randrange(other), other)

    def add_change(self):
        if self.clock[1] != 0:
            self.advance_to(self.clock[0] + 1, 0, self.draw.randint(1, 1_000))
        kind = self.draw.random()
        if len(self.aboard) < self.most_aboard and (kind < 0.5 or not self.aboard):
            number = self.number()
            if number not in self.aboard:
                self.aboard.append(number)
                self.trace += enter(number, self.position(), self.speed())
        elif self.aboard and kind < 0.9:
            self.trace += steer(self.draw.choice(self.aboard), self.speed())
        elif self.aboard:
            number = self.aboard.pop(self.draw.randrange(len(self.aboard)))
            self.trace += leave(number)

    def add_refused(self):
        """A call that is refused, for the most part."""
        seconds, numerator, denominator = self.clock
        someone = self.draw.choice(self.aboard) if self.aboard else self.number()
        nobody = self.draw.randint(1, 65_535)
        sign = self.draw.choice([-1, 1])
        self.trace += self.draw.choice(
            [
                enter(0, 1, 1),
                enter(nobody, sign * 100_000_001, 1),
                enter(nobody, 1, sign * 1_001),
                enter(nobody, 1, sign * 32_767),
                enter(someone, 1, 1),
                enter(nobody, sign * 100_000_000, sign * 1_000),
                leave(0),
                leave(nobody),
                leave(someone),
                steer(0, 1),
                steer(nobody, 1),
                steer(someone, sign * 1_001),
                steer(someone, -32_768),
                steer(someone, sign * 1_000),
                advance(seconds, 0, 0),
                advance(seconds + 1, 1, 1_001),
                advance(seconds + 1, 1, 1),
                advance(seconds + 1, 999, 1_000),
                advance(LAST_SECOND, 0, 7),
                advance(LAST_SECOND, 1, 2),
                advance(LAST_SECOND + 1),
                advance(max(seconds - 1, 0), 0, 1),
                advance(seconds, numerator // 2, denominator),
                advance(seconds, numerator, min(denominator + 1, 1_000)),
                advance(2**32 - 1, 65_535, 65_535),
            ]
        )

    def add_record(self):
        kind = self.draw.random()
        if kind < self.refused:
            self.add_refused()
        elif kind < self.order_lines:
            self.trace += ORDER
        elif kind < self.order_lines + 0.25:
            self.add_advance()
        else:
            self.add_change()


def full_board(world):
    """Enters vessels until the board is full, and perhaps one more."""
    world.most_number = 65_535
    for number in world.draw.sample(range(1, 65_536), world.draw.choice([63, 64, 64, 64, 65])):
        world.trace += enter(number, world.position(), world.speed())
        world.aboard.append(number)
    world.most_aboard = 64


def full_page(draw):
    """Order lines of an empty board, of three bytes and then of four, that fill the page, but for a byte, or with one too many."""
    length = MOST_PAGE + draw.choice([-1, 0, 1])
    fours = length % 3 + 3 * draw.randrange(9)
    threes = (length - 4 * fours) // 3
    return HEADER + ORDER * threes + advance(10) + ORDER * fours + END


def random_trace(draw):
    """Random calls, now and then one that is refused, and now and then more order lines than the page has room for."""
    if draw.random() < 0.02:
        return full_page(draw)
    world = Random(draw)
    if draw.random() < 0.3:
        full_board(world)
    length = draw.choice([30, 100, 300, 1_000]) + len(world.trace)
    if draw.random() < 0.02:
        length = MOST_BYTES - 30
    while len(world.trace) < length:
        world.add_record()
    if draw.random() < 0.02:
        world.trace += ORDER * draw.choice([90, 2_000])
    return bytes(world.trace) + END


def damaged(draw):
    """A random trace that is cut off, has other bytes somewhere, or goes on after its end; or a trace of the most bytes."""
    trace = bytearray(random_trace(draw))
    kind = draw.randrange(8)
    if kind == 0:
        del trace[draw.randrange(len(trace)) :]
    elif kind == 1:
        del trace[draw.randrange(min(len(trace), 12)) :]
    elif kind == 2:
        trace[draw.randrange(5)] = draw.randrange(256)
    elif kind == 3:
        trace += draw.randbytes(draw.choice([1, 2, 40, MOST_BYTES]))
    elif kind == 4:
        del trace[draw.randrange(len(trace))]
    elif kind == 5:
        trace.insert(draw.randrange(len(trace)), draw.choice(b"ELSAQZ\x00\xff"))
    elif kind == 6:
        for _ in range(draw.randint(1, 3)):
            trace[draw.randrange(len(trace))] ^= 1 << draw.randrange(8)
    else:
        # an end at the last byte that is read, one before it or one after it, and perhaps more bytes
        steps, rest = divmod(MOST_BYTES + draw.choice([-1, 0, 1]) - len(HEADER + END), 9)
        trace = HEADER + advance(0) * steps + ORDER * rest + END + draw.randbytes(draw.randrange(3))
    return bytes(trace)


MEASURED = {kind.__name__: kind for kind in (empty, quiet, advances, orders, steers, crowded)}
DRAWN = {"random": random_trace, "damaged": damaged}
KINDS = MEASURED | DRAWN


def generate(kind, seed):
    """The trace of a kind and a seed: the same pair gives the same bytes."""
    return KINDS[kind](random.Random(f"{kind} {seed}"))
