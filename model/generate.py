"""Flights from a seed.

    python3 generate.py SEED PLANFILE TRACEFILE

writes the two files of a flight and prints its rule.

A flight depends on its seed alone, so that a program in another language can make the same ones:

- Draws come from a splitmix generator of 64 bits. Its state starts at the seed. A draw adds 9E3779B97F4A7C15 to the state (all
  modulo 2 to the 64), and then, with z the new state:
      z = (z xor z >> 30) * BF58476D1CE4E5B9;  z = (z xor z >> 27) * 94D049BB133111EB;  z = z xor z >> 31.
- below(n) is one draw: (z >> 32) modulo n. Divisions round down.
- Draws are made in the order of the text, from left to right; the bound of a loop is drawn once.

Seeds below 1000 are short flights, many of them with damaged files. Seeds from 1000 are flights of some thousand ticks, from 1500
of three frames of the allowance, from 2000 of more than a million ticks.
"""

import sys

import durashem_model as model

MASK = (1 << 64) - 1
DIVISORS = [n for n in range(1, 14401) if 14400 % n == 0]
LIMITS = [0, 1, 2, 5, 20, 100, 400, 65535]


class Draws:
    def __init__(self, seed):
        self.state = seed & MASK

    def below(self, n):
        self.state = (self.state + 0x9E3779B97F4A7C15) & MASK
        z = self.state
        z = ((z ^ (z >> 30)) * 0xBF58476D1CE4E5B9) & MASK
        z = ((z ^ (z >> 27)) * 0x94D049BB133111EB) & MASK
        z ^= z >> 31
        return (z >> 32) % n

    def between(self, low, high):
        return low + self.below(high - low + 1)


# Plans

def make_plan(draws, count, shortest, longest, fullness):
    """A plan of so many rows, with periods between two bounds as far as the weight allows. With fullness 2 the last row takes all
    of the weight that is left, with 1 a little less, with 0 it is like the others."""
    plan = model.Plan()
    isolated_of_four = draws.below(4)
    periods = [n for n in DIVISORS if shortest <= n <= longest]
    for number in range(count):
        rows_left = count - number
        rest = 14400 - plan.weight
        last = fullness > 0 and rows_left == 1
        period = 14400                       # if no other fits: this one always does
        for _ in range(20):
            drawn = periods[draws.below(len(periods))]
            unit = 14400 // drawn
            fits = rest >= unit * rows_left
            if last:
                fits = rest % unit == 0
            if fits:
                period = drawn
                break
        unit = 14400 // period
        most = (rest - (rows_left - 1)) // unit
        if not last:
            budget = draws.between(1, max(1, min(most, 2 * most // rows_left)))
        elif fullness == 1:
            budget = max(1, most - 1)
        else:
            budget = most
        isolated = draws.below(4) < isolated_of_four
        plan.add(isolated, budget, period)
    return plan


def thieves_plan(draws):
    """One or two servers of a long period and a small budget come first, and then some from whom they can steal."""
    plan = model.Plan()
    for _ in range(draws.between(1, 2)):
        period = [60, 120, 240, 600, 1440][draws.below(5)]
        budget = draws.between(1, period // 10)
        isolated = draws.below(2) == 0
        plan.add(isolated, budget, period)
    for _ in range(draws.between(1, 4)):
        period = DIVISORS[draws.between(6, 30)]
        most = (14400 - plan.weight) // (14400 // period)
        if most > 0:
            budget = draws.between((most + 1) // 2, most)
            isolated = draws.below(8) == 0
            plan.add(isolated, budget, period)
    return plan


def plan_file(plan):
    buffer = bytearray(1 + 4 * len(plan.rows))
    model.write_plan(plan, buffer)
    return buffer


# Traces

def record(kind, argument):
    return (kind << 14 | argument).to_bytes(2, 'big')


class Pilot:
    """Writes a trace and flies it at once, so that it knows who runs."""

    def __init__(self, draws, plan, rule):
        self.draws = draws
        self.executive = model.Executive(plan, rule)
        self.rows = self.executive.rows
        self.trace = bytearray()

    def somebody_runs(self):
        return self.executive.who()[0] != model.NOBODY

    def arrive(self, server):
        self.executive.arrive(server)
        self.trace += record(1, server)

    def tick(self, count):
        for _ in range(count):
            self.executive.tick(False)
        self.trace += record(0, count)

    def finish(self):
        self.executive.tick(True)
        self.trace += record(2, 0)

    def drawn_row(self):
        return self.rows[self.draws.below(len(self.rows))]

    def drawn_ticks(self, longest):
        """A number of ticks: often few, often up to where something happens to a row, or close to it."""
        choice = self.draws.below(8)
        if choice < 3 or not self.rows:
            return self.draws.between(1, min(3, longest))
        if choice == 7:
            return self.draws.between(1, longest)
        row = self.drawn_row()
        if choice == 3:
            count = row.d - self.executive.instant
        elif choice == 4:
            count = row.d - self.executive.instant - 1
        elif choice == 5:
            count = row.c + row.r
        else:
            count = self.draws.between(1, row.period)
        return max(1, min(count, longest))

    def tick_on(self, ticks):
        """Ticks alone up to this instant."""
        while self.executive.instant < ticks:
            self.tick(min(16383, ticks - self.executive.instant))

    def fly(self, ticks, records, longest, arrivals, finishes, busy):
        """Flies on up to an instant, or up to a number of records. Of 100 records, so many are arrivals, and so many finishes if
        somebody runs. Most arrivals are at the busy servers: the first ones, as many as busy says, or, if it is negative, the last
        ones. A few are at all servers at once."""
        while self.executive.instant < ticks and len(self.trace) < 2 * records:
            choice = self.draws.below(100)
            if choice < arrivals and self.rows:
                where = self.draws.below(24)
                if where == 0:
                    for row in self.rows:
                        if row.j < 250:
                            self.arrive(row.number)
                    continue
                if where < 4 or busy == 0:
                    row = self.drawn_row()
                else:
                    number = self.draws.below(abs(busy))
                    row = self.rows[number if busy > 0 else len(self.rows) - 1 - number]
                if row.j < 250:
                    self.arrive(row.number)
            elif arrivals <= choice < arrivals + finishes and self.somebody_runs():
                self.finish()
            else:
                self.tick(self.drawn_ticks(longest))

    def end(self):
        """Most traces end well; some with a fault, and perhaps with records after it that nobody hears."""
        choice = self.draws.below(24)
        if choice < 11:
            return
        if choice < 13:
            server = len(self.rows)
            if choice == 12:
                server = self.draws.between(server, 16383)
            self.trace += record(1, server)
        elif choice < 17:
            if not self.run_dry():
                return
            self.trace += record(2, 0)
        elif choice == 17:
            if not self.rows:
                return
            row = self.drawn_row()
            while row.j < model.MOST_JOBS:
                self.arrive(row.number)
            if self.draws.below(2) == 0:
                self.tick(self.draws.between(1, row.period))
                if self.somebody_runs():
                    self.finish()
                while row.j < model.MOST_JOBS:
                    self.arrive(row.number)
            self.trace += record(1, row.number)
        elif choice == 18:
            self.trace += record(3, self.draws.below(16384))
        elif choice == 19:
            self.trace += record(0, 0)
        elif choice == 20:
            self.trace += record(2, self.draws.between(1, 16383))
        elif choice == 21:
            self.trace += record(2, 1 << self.draws.below(14))
        else:
            self.trace.append(self.draws.below(256))
            return
        for _ in range(self.draws.below(4)):
            self.trace += record(0, self.draws.between(1, 5))

    def run_dry(self):
        """Comes to where nobody runs, by finishes and some ticks; says whether it did."""
        for _ in range(60):
            if not self.somebody_runs():
                return True
            if self.draws.below(4) == 0:
                self.tick(1)
            else:
                self.finish()
        return not self.somebody_runs()


# Damage

def damage_plan(draws, data):
    """Damages a plan file. Damaged rows are among its rows, so a file without rows is only cut, lengthened or drawn."""
    rows = (len(data) - 1) // 4
    choice = draws.below(24)
    if rows == 0:
        choice = 10 + draws.below(14)
    start = 1
    if rows > 0:
        start = 1 + 4 * draws.below(rows)
    word = int.from_bytes(data[start:start + 4], 'big')
    top, budget, period = word & 0xF0000000, (word >> 14) & 0x3FFF, word & 0x3FFF
    if choice < 3:                           # a wrong period, perhaps with a wrong budget
        period = [0, 7, 14399, 16383, 11, period + 1][draws.below(6)]
        if choice == 2:
            budget = 0
    elif choice < 6:                         # a wrong budget
        budget = [0, period + 1, 16383][choice - 3]
    elif choice < 8:                         # zero bits set, perhaps with a wrong period
        top |= 0x10000000 << draws.below(3)
        if choice == 7:
            top |= draws.below(8) << 28
            period = 0
    elif choice == 8:                        # too much weight
        budget = period
        if rows == 1:
            data[0] = 2
            data += model.row_bytes(True, 1, 14400)
    elif choice == 9:                        # one row more that weighs the rest and one more
        data[0] += 1
        rest = 14400 - model.read_plan(bytes([rows]) + data[1:]).weight
        data += model.row_bytes(False, min(rest + 1, 14400), 14400)
    elif choice < 13:                        # cut anywhere
        del data[draws.below(len(data)):]
    elif choice < 15:                        # a row is announced that is not there, or only in part
        data[0] += 1
        for _ in range(draws.below(4)):
            data.append(draws.below(256))
    elif choice < 17:                        # bytes too many
        for _ in range(draws.between(1, 5)):
            data.append(draws.below(256))
    elif choice == 17 and rows > 0:          # a row too many for the count
        data[0] -= 1
    elif choice < 22:                        # some bits turned
        for _ in range(draws.between(1, 3)):
            place = draws.below(8 * len(data))
            data[place >> 3] ^= 0x80 >> (place & 7)
    else:                                    # drawn bytes
        length = draws.below(40)
        del data[:]
        for _ in range(length):
            data.append(draws.below(256))
        if length > 0 and choice == 23:
            data[0] = (length - 1) // 4
    if choice < 9 and rows > 0:
        data[start:start + 4] = (top | budget << 14 | period).to_bytes(4, 'big')


def crowded_plan(draws):
    """A plan file of more than 32 rows. The first 32 are sound; of those that follow some have other faults too."""
    data = bytearray([draws.between(33, 40)])
    for _ in range(32):
        period = DIVISORS[draws.between(40, 62)]
        data += model.row_bytes(draws.below(2) == 0, 1, period)
    for _ in range(33, data[0] + 1):
        choice = draws.below(6)
        row = bytearray(model.row_bytes(False, choice % 3, 14400 if choice < 4 else 7))
        if choice == 3:
            row[0] |= 0x10
        data += row
    if draws.below(6) == 0:
        del data[draws.between(125, 132):]
    return data


def damage_trace(draws, data):
    """Damages a trace."""
    choice = draws.below(8)
    if choice < 2:                           # cut anywhere
        del data[draws.below(len(data) + 1):]
    elif choice < 5:                         # some bits turned
        for _ in range(draws.between(1, 4)):
            if len(data) > 0:
                place = draws.below(8 * len(data))
                data[place >> 3] ^= 0x80 >> (place & 7)
    elif choice == 5:                        # a byte lost or gained, so that the records after it are others
        place = draws.below(len(data) + 1)
        if place < len(data) and draws.below(2) == 0:
            del data[place]
        else:
            data.insert(place, draws.below(256))
    else:                                    # drawn bytes, and drawn records with small arguments
        length = draws.below(40)
        del data[:]
        for _ in range(length):
            data.append(draws.below(256))
        if choice == 7:
            for place in range(0, length, 2):
                data[place] &= 0xC0
                if place + 1 < length:
                    data[place + 1] = 0 if data[place] == 0x80 else data[place + 1] & 3


# Flights

def drawn_rule(draws):
    choice = draws.below(8)
    if choice < 3:
        return 'E'
    if choice == 3:
        return 'N'
    if choice < 6:
        return 'T'
    return f'A:{LIMITS[draws.below(len(LIMITS))]}'


def drawn_load(draws, servers):
    """Of 100 records, how many are arrivals and how many finishes; and which servers are busy."""
    arrivals, finishes = [(8, 20), (20, 25), (25, 15), (30, 8), (12, 4), (40, 35)][draws.below(6)]
    busy = 0
    if servers > 1 and draws.below(4) != 0:
        busy = draws.between(1, (servers + 1) // 2)
        if draws.below(2) == 0:
            busy = -busy
    return arrivals, finishes, busy


def sorted_by_period(plan, rising):
    """The same rows, by rising or falling period; rows of equal period keep their order."""
    result = model.Plan()
    for period in DIVISORS if rising else reversed(DIVISORS):
        for row in plan.rows:
            if row[2] == period:
                result.add(*row)
    return result


def drawn_plan(draws):
    size = draws.below(16)
    if size == 0:
        count = draws.below(2)
    elif size < 10:
        count = draws.between(2, 6)
    elif size < 14:
        count = draws.between(4, 12)
    elif size == 14:
        count = draws.between(13, 31)
    else:
        count = 32
    shortest, longest = [(1, 20), (2, 40), (10, 12), (40, 48), (5, 100), (10, 400), (2, 14400), (100, 14400)][draws.below(8)]
    fullness = draws.below(3)
    if size == 5 or size == 6:
        plan = thieves_plan(draws)
    else:
        plan = make_plan(draws, count, shortest, longest, fullness)
    order = draws.below(3)
    if order > 0:
        plan = sorted_by_period(plan, order == 1)
    return plan


def short_flight(draws):
    rule = drawn_rule(draws)
    plan = drawn_plan(draws)
    pilot = Pilot(draws, plan, model.rule_of(rule))
    ticks = draws.between(10, 400)
    records = draws.between(5, 90)
    longest = [5, 40, 400][draws.below(3)]
    arrivals, finishes, busy = drawn_load(draws, len(plan.rows))
    pilot.fly(ticks, records, longest, arrivals, finishes, busy)
    pilot.end()
    data = plan_file(plan)
    damage = draws.below(16)
    if damage == 0:
        data = crowded_plan(draws)
    elif damage < 5:
        damage_plan(draws, data)
    elif damage < 7:
        damage_trace(draws, pilot.trace)
    return bytes(data), bytes(pilot.trace), rule


def long_flight(draws):
    """Eight stretches of different load."""
    rule = drawn_rule(draws)
    plan = drawn_plan(draws)
    pilot = Pilot(draws, plan, model.rule_of(rule))
    stretch_flight(draws, pilot, draws.between(2000, 8000), 1500, 60)
    return bytes(plan_file(plan)), bytes(pilot.trace), rule


def frames_flight(draws):
    """Three frames under the allowance: light load, and overload from shortly before a frame ends."""
    rule = f'A:{draws.between(5, 120)}'
    plan = thieves_plan(draws)
    pilot = Pilot(draws, plan, model.rule_of(rule))
    for frame in range(1, 4):
        end = frame * 14400
        pilot.fly(end - 200, 300 * frame - 150, 400, 4, 20, 0)
        pilot.tick_on(end - draws.between(1, 200))
        pilot.fly(end + draws.between(10, 600), 300 * frame, 40, 30, 3, 1)
    return bytes(plan_file(plan)), bytes(pilot.trace), rule


def million_flight(draws):
    rule = f'A:{draws.between(800, 1200)}'
    plan = sorted_by_period(make_plan(draws, 4, 40, 7200, 2), True)
    pilot = Pilot(draws, plan, model.rule_of(rule))
    stretch_flight(draws, pilot, draws.between(1000001, 1100000), 32000, 400)
    return bytes(plan_file(plan)), bytes(pilot.trace), rule


def stretch_flight(draws, pilot, ticks, records, longest):
    for stretch in range(1, 9):
        arrivals, finishes, busy = drawn_load(draws, len(pilot.rows))
        pilot.fly(ticks * stretch // 8, records * stretch // 8, longest, arrivals, finishes, busy)
    pilot.tick_on(ticks)
    if draws.below(4) == 0:
        pilot.end()


def flight(seed):
    """The plan file, the trace and the rule of a flight."""
    draws = Draws(seed)
    if seed < 1000:
        return short_flight(draws)
    if seed < 1500:
        return long_flight(draws)
    if seed < 2000:
        return frames_flight(draws)
    return million_flight(draws)


def fresh(seed):
    """A flight of any seed that is not in the fixed list: mostly a short one, and one in fifty of some thousand ticks."""
    draws = Draws(seed + (1 << 32))
    return long_flight(draws) if seed % 50 == 0 else short_flight(draws)


def main(words):
    plan_bytes, trace_bytes, rule = flight(int(words[0]))
    with open(words[1], 'wb') as file:
        file.write(plan_bytes)
    with open(words[2], 'wb') as file:
        file.write(trace_bytes)
    print(rule)


if __name__ == '__main__':
    main(sys.argv[1:])
