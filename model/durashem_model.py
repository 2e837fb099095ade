"""A model of the scheduler Durashem, written from its documentation alone.

    python3 durashem_model.py PLANFILE TRACEFILE [--rule E|N|T|A:LIMIT]

prints the listing of a flight.
"""

import sys

MOST_ROWS = 32
COMMON_MULTIPLE = 14400
FRAME_TICKS = 14400
LAST_INSTANT = 4000000000
MOST_JOBS = 255
NOBODY = 65535
MOST_BYTES = 65536

RESTING, AT_WORK, SUPPLYING = 0, 1, 2
OWN, RESIDUAL, STOLEN, IDLE, EMPTY = 'o', 'r', 's', 'i', 'e'


class Fault(Exception):
    """A refusal or a fault: its number, and, in a file, the byte where the faulty record begins."""

    def __init__(self, number, byte=None):
        Exception.__init__(self, number, byte)
        self.number = number
        self.byte = byte

    def layer(self):
        if self.number <= 4:
            return 'plan'
        if self.number == 5:
            return 'bits'
        if self.number <= 9:
            return 'records'
        return 'executive'

    def at(self, byte):
        return Fault(self.number, byte)

    def __str__(self):
        return f'{self.number} {self.layer()} {self.byte}'


# Plans

class Plan:
    def __init__(self):
        self.rows = []                       # (isolated, budget, period), by number
        self.weight = 0

    def add(self, isolated, budget, period):
        """Adds a row and answers its number."""
        if len(self.rows) == MOST_ROWS:
            raise Fault(1)
        if period == 0 or COMMON_MULTIPLE % period != 0:
            raise Fault(2)
        if budget == 0 or budget > period:
            raise Fault(3)
        weight = budget * (COMMON_MULTIPLE // period)
        if self.weight + weight > COMMON_MULTIPLE:
            raise Fault(4)
        self.rows.append((isolated, budget, period))
        self.weight += weight
        return len(self.rows) - 1


def read_plan(data):
    """The plan of a plan file."""
    if len(data) < 1:
        raise Fault(5, 0)
    plan = Plan()
    byte = 1
    for _ in range(data[0]):
        if len(data) - byte < 4:
            raise Fault(5, byte)
        word = int.from_bytes(data[byte:byte + 4], 'big')
        if (word >> 28) & 7 != 0:
            raise Fault(6, byte)
        try:
            plan.add(word >> 31 == 1, (word >> 14) & 0x3FFF, word & 0x3FFF)
        except Fault as fault:
            raise fault.at(byte)
        byte += 4
    if byte < len(data):
        raise Fault(7, byte)
    return plan


def row_bytes(isolated, budget, period):
    """The four bytes of a row."""
    return ((1 if isolated else 0) << 31 | budget << 14 | period).to_bytes(4, 'big')


def write_plan(plan, buffer):
    """Writes a plan file to the start of a bytearray and answers its length."""
    length = 1 + 4 * len(plan.rows)
    if len(buffer) < length:
        raise Fault(8, 0)
    buffer[0] = len(plan.rows)
    for number, (isolated, budget, period) in enumerate(plan.rows):
        buffer[1 + 4 * number:5 + 4 * number] = row_bytes(isolated, budget, period)
    return length


# Donor rules. An offer is (number, deadline, capacity); offers stand by rising number.
# A choice is a position in the offers, or None.

class EarliestFirst:
    letter = 'E'

    def choose(self, instant, thief, offers):
        best = None
        for position, offer in enumerate(offers):
            if best is None or offer[1] < offers[best][1]:
                best = position
        return best

    def charged(self, instant, thief, payer):
        pass


class Nobody:
    letter = 'N'

    def choose(self, instant, thief, offers):
        return None

    def charged(self, instant, thief, payer):
        pass


class Turns:
    letter = 'T'

    def __init__(self):
        self.last = None

    def choose(self, instant, thief, offers):
        if self.last is not None:
            for position, offer in enumerate(offers):
                if offer[0] > self.last:
                    return position
        return 0 if offers else None

    def charged(self, instant, thief, payer):
        self.last = payer


class Allowance:
    """At most so many stolen ticks for a thief in a frame; else what the rule below picks."""
    letter = 'A'

    def __init__(self, limit, below):
        self.limit = limit
        self.below = below
        self.frame = 0
        self.counts = [0] * 32

    def choose(self, instant, thief, offers):
        if thief < 32:
            count = self.counts[thief] if instant // FRAME_TICKS == self.frame else 0
            if count >= self.limit:
                return None
        return self.below.choose(instant, thief, offers)

    def charged(self, instant, thief, payer):
        frame = instant // FRAME_TICKS
        if frame != self.frame:
            self.frame = frame
            self.counts = [0] * 32
        if thief < 32 and self.counts[thief] < 65535:
            self.counts[thief] += 1
        self.below.charged(instant, thief, payer)


def rule_of(text):
    """The rule that E, N, T or A:LIMIT names; None if it names none."""
    if text == 'E':
        return EarliestFirst()
    if text == 'N':
        return Nobody()
    if text == 'T':
        return Turns()
    digits = text[2:]
    if text[:2] == 'A:' and digits.isascii() and digits.isdigit() and int(digits) <= 65535:
        return Allowance(int(digits), EarliestFirst())
    return None


# Rows

class Row:
    __slots__ = ('number', 'isolated', 'budget', 'period', 'phase', 'c', 'r', 'd', 'j')

    def __init__(self, number, isolated, budget, period):
        self.number = number
        self.isolated = isolated
        self.budget = budget
        self.period = period
        self.phase = RESTING
        self.c = 0                           # capacity
        self.r = 0                           # residual
        self.d = 0                           # deadline
        self.j = 0                           # jobs

    def recharge(self, t):
        self.c = self.budget
        self.r = 0
        self.d = t + self.period

    def arrival(self, t):
        self.j += 1
        if self.phase == RESTING:
            if self.d <= t:
                self.recharge(t)
            self.phase = AT_WORK

    def finish(self):
        if self.phase == AT_WORK:
            self.j -= 1
            if self.j == 0:
                self.r = self.c
                self.c = 0
                self.phase = SUPPLYING

    def deadline(self, t):
        if self.phase == AT_WORK:
            self.recharge(t)
        elif self.phase == SUPPLYING:
            if self.j >= 1:
                self.recharge(t)
                self.phase = AT_WORK
            else:
                self.c = 0
                self.r = 0
                self.phase = RESTING

    def cut(self, t):
        share = (self.d - t) * self.budget // self.period
        if self.c > share:
            self.c = share


# The executive

class Executive:
    def __init__(self, plan, rule):
        self.rule = rule
        self.instant = 0
        self.rows = [Row(number, *terms) for number, terms in enumerate(plan.rows)]

    def arrive(self, server):
        if server >= len(self.rows):
            raise Fault(10)
        row = self.rows[server]
        if row.j == MOST_JOBS:
            raise Fault(11)
        row.arrival(self.instant)

    def who(self):
        """Numbers of the runner and the payer, and the source."""
        runner, payer, source = self.turn()
        return (NOBODY if runner is None else runner.number,
                NOBODY if payer is None else payer.number, source)

    def tick(self, finished):
        """Numbers of the runner and the payer, the source, the payer's deadline, and what is left."""
        t = self.instant
        if t >= LAST_INSTANT:
            raise Fault(12)
        runner, payer, source = self.turn()
        if finished and runner is None:
            raise Fault(13)
        deadline = left = 0
        if payer is not None:
            if source == STOLEN and payer.d <= t:
                payer.recharge(t)
            if source == RESIDUAL or source == IDLE:
                payer.r -= 1
                left = payer.r
            else:
                payer.c -= 1
                left = payer.c
            deadline = payer.d
            if source == STOLEN:
                self.rule.charged(t, runner.number, payer.number)
        if finished:
            runner.finish()
        t += 1
        self.instant = t
        for row in self.rows:
            if row.phase != RESTING:
                if row.d <= t:
                    row.deadline(t)
            elif row.d >= t:
                row.cut(t)
            # A row that comes to rest just here has no capacity to cut.
        return (NOBODY if runner is None else runner.number,
                NOBODY if payer is None else payer.number, source, deadline, left)

    def turn(self):
        """The rows of the runner and the payer (None for nobody), and the source."""
        supplier = None                      # the earliest supplying row with something left
        runner = None                        # the earliest row at work
        for row in self.rows:
            if row.phase == AT_WORK:
                if runner is None or row.d < runner.d:
                    runner = row
            elif row.phase == SUPPLYING and row.r > 0:
                if supplier is None or row.d < supplier.d:
                    supplier = row
        while runner is not None:
            if supplier is not None and supplier.d <= runner.d:
                return runner, supplier, RESIDUAL
            if runner.c > 0:
                return runner, runner, OWN
            donor = self.donor(runner)
            if donor is not None:
                return runner, donor, STOLEN
            runner = self.next_at_work(runner)
        if supplier is not None:
            return None, supplier, IDLE
        return None, None, EMPTY

    def next_at_work(self, passed):
        """The row at work that comes right after this one, by deadline and then by number."""
        best = None
        for row in self.rows:
            if row.phase == AT_WORK:
                if row.d > passed.d or row.d == passed.d and row.number > passed.number:
                    if best is None or row.d < best.d:
                        best = row
        return best

    def donor(self, thief):
        """The row from which the rule lets this one steal, or None."""
        t = self.instant
        offers = []
        for row in self.rows:
            if row.phase == RESTING and not row.isolated:
                if row.d > t:
                    if row.d <= thief.d and row.c > 0:
                        offers.append((row.number, row.d, row.c))
                elif t + row.period <= thief.d:
                    offers.append((row.number, t + row.period, row.budget))
        if not offers:
            return None
        position = self.rule.choose(t, thief.number, offers)
        return None if position is None else self.rows[offers[position][0]]


# Traces and the listing

def play(executive, trace, lines):
    """Gives a trace to an executive and appends a line for each tick. Answers the fault, or None."""
    byte = 0
    try:
        while byte < len(trace):
            if len(trace) - byte < 2:
                raise Fault(5)
            kind = trace[byte] >> 6
            argument = (trace[byte] & 0x3F) << 8 | trace[byte + 1]
            if kind == 3 or kind == 0 and argument == 0 or kind == 2 and argument != 0:
                raise Fault(9)
            if kind == 1:
                executive.arrive(argument)
            else:
                for _ in range(1 if kind == 2 else argument):
                    instant = executive.instant
                    runner, payer, source, deadline, left = executive.tick(kind == 2)
                    if payer == NOBODY:
                        lines.append(f'{instant} - {source} - - -')
                    elif runner == NOBODY:
                        lines.append(f'{instant} - {source} {payer} {deadline} {left}')
                    else:
                        lines.append(f'{instant} {runner} {source} {payer} {deadline} {left}')
            byte += 2
    except Fault as fault:
        return fault.at(byte)
    return None


def listing(plan_bytes, trace_bytes, rule):
    """The lines of the listing, and the fault or None."""
    lines = []
    try:
        plan = read_plan(plan_bytes[:MOST_BYTES])
    except Fault as fault:
        return [f'fault {fault}'], fault
    lines.append(f'rule {rule.letter} servers {len(plan.rows)}')
    fault = play(Executive(plan, rule), trace_bytes[:MOST_BYTES], lines)
    if fault is not None:
        lines.append(f'fault {fault}')
    return lines, fault


def first_bytes(path):
    try:
        with open(path, 'rb') as file:
            return file.read(MOST_BYTES)
    except OSError:
        return b''


def main(words):
    rule = EarliestFirst()
    if len(words) == 4 and words[2] == '--rule':
        rule = rule_of(words[3])
    elif len(words) != 2:
        rule = None
    if rule is None:
        sys.exit('use: durashem_model.py PLANFILE TRACEFILE [--rule E|N|T|A:LIMIT]')
    lines, _ = listing(first_bytes(words[0]), first_bytes(words[1]), rule)
    sys.stdout.write('\n'.join(lines) + '\n')


if __name__ == '__main__':
    main(sys.argv[1:])
