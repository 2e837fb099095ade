"""What the model says of a fixed list of flights.

    python3 expected.py

prints a line for each flight: SEED RULE TICKS CHECKSUM FAULT. The checksum is a 32-bit FNV-1a over the bytes of the whole listing,
each line with its newline. The fault is - or its number, layer and byte. A summary goes to the standard error.
"""

import sys

import durashem_model as model
import generate

SHORT = range(1, 601)
LONG = range(1001, 1037)
FRAMES = range(1501, 1513)
MILLION = [2001]

SOURCES = {'o': 'own', 'r': 'residual', 's': 'stolen', 'i': 'idle', 'e': 'empty'}
FAULTS = [1, 2, 3, 4, 5, 6, 7, 9, 10, 11, 13]
LEAST = 3


def fnv(lines):
    """FNV-1a over lines, each with its newline."""
    value = 0x811C9DC5
    for line in lines:
        for byte in line.encode('ascii'):
            value = (value ^ byte) * 0x01000193 & 0xFFFFFFFF
        value = (value ^ 10) * 0x01000193 & 0xFFFFFFFF
    return value


def main():
    sources = {letter: 0 for letter in SOURCES}
    faults = {number: 0 for number in FAULTS}
    places = {}                              # faults 5 apart: in the plan file, and in the trace
    rules = {}
    flights = ticks_of_all = bytes_of_all = 0
    for seeds in (SHORT, LONG, FRAMES, MILLION):
        for seed in seeds:
            plan_bytes, trace_bytes, rule = generate.flight(seed)
            lines, fault = model.listing(plan_bytes, trace_bytes, model.rule_of(rule))
            ticks = 0
            for line in lines:
                words = line.split(' ', 3)
                if words[0] != 'rule' and words[0] != 'fault':
                    ticks += 1
                    sources[words[2]] += 1
            if fault is not None:
                faults[fault.number] += 1
                if fault.number == 5:
                    place = 'plan file' if lines[0].startswith('fault') else 'trace'
                    places[place] = places.get(place, 0) + 1
            print(seed, rule, ticks, f'{fnv(lines):08x}', '-' if fault is None else fault, flush=True)
            rules[rule[0]] = rules.get(rule[0], 0) + 1
            flights += 1
            ticks_of_all += ticks
            bytes_of_all += len(plan_bytes) + len(trace_bytes)

    say = sys.stderr.write
    say(f'{flights} flights, {ticks_of_all} ticks, {bytes_of_all} bytes of plan files and traces\n')
    for letter in sorted(rules):
        say(f'rule {letter}: {rules[letter]} flights\n')
    for letter, name in SOURCES.items():
        say(f'source {name}: {sources[letter]} ticks\n')
    for number in FAULTS:
        say(f'fault {number}: {faults[number]} flights\n')
    for place in sorted(places):
        say(f'  of fault 5 in the {place}: {places[place]}\n')
    seldom = [SOURCES[letter] for letter in SOURCES if sources[letter] < LEAST]
    seldom += [f'fault {number}' for number in FAULTS if faults[number] < LEAST]
    if seldom:
        sys.exit('too seldom: ' + ', '.join(seldom))
    say(f'each source and each fault is reached at least {LEAST} times\n')


if __name__ == '__main__':
    main()
