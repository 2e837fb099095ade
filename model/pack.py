"""Packs the flights of expected.py into one file, for the program that flies them in the gate.

    python3 pack.py FILE

A flight is its seed (4 bytes), the rule's letter (1 byte), the allowance's limit (2 bytes, 0 for the other rules), the lengths of plan
file and trace (4 bytes each), and then the two. Numbers are written with the most significant byte first.
"""

import struct
import sys

import expected
import generate


def packed(seed):
    plan, trace, rule = generate.flight(seed)
    limit = int(rule[2:]) if rule.startswith('A:') else 0
    return struct.pack('>IBHII', seed, ord(rule[0]), limit, len(plan), len(trace)) + plan + trace


def main():
    with open(sys.argv[1], 'wb') as out:
        for seeds in (expected.SHORT, expected.LONG, expected.FRAMES, expected.MILLION):
            for seed in seeds:
                out.write(packed(seed))


if __name__ == '__main__':
    main()
