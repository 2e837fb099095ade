"""Listing speed: the program durashem against the same program written plainly in Rust (listing.rs), on the same flights, in one run.

    python3 bench/listing.py [ROUNDS]

Needs crates/durashem/out/durashem (./fly builds it) and rustc. The two run in turn, ROUNDS times (5, if not named), on a flight of a million
ticks under light load and on one of half a million with 32 servers in overload; the output of both is compared byte by byte first. Printed are the user times and
their ratio: the median, the least and the greatest.
"""

import os
import resource
import struct
import subprocess
import sys
import tempfile

HERE = os.path.dirname(os.path.abspath(__file__))
ROOT = os.path.dirname(HERE)


def row(isolated, budget, period):
    return struct.pack('>I', isolated << 31 | budget << 14 | period)


def ticks(count):
    return struct.pack('>H', count)


def arrival(server):
    return struct.pack('>H', 1 << 14 | server)


FINISH = struct.pack('>H', 2 << 14)


def light():
    """Four servers; every 100 ticks one has a job that ends in its first tick. A million ticks."""
    plan = bytes([4]) + row(1, 10, 100) + row(0, 20, 100) + row(1, 30, 200) + row(0, 40, 400)
    return plan, (arrival(0) + FINISH + ticks(99)) * 10000


def crowded():
    """32 servers near full weight, all at work, every budget used up. Half a million ticks."""
    plan = bytes([32]) + b''.join(row(k % 2, 14, 450) for k in range(32))
    return plan, b''.join(arrival(k) for k in range(32)) + ticks(10000) * 50


def user_time(program, folder, out):
    before = resource.getrusage(resource.RUSAGE_CHILDREN).ru_utime
    subprocess.run([program], cwd=folder, stdout=out, check=True)
    return resource.getrusage(resource.RUSAGE_CHILDREN).ru_utime - before


def main():
    rounds = int(sys.argv[1]) if len(sys.argv) > 1 else 5
    ours = os.path.join(ROOT, 'crates', 'durashem', 'out', 'durashem')
    folder = tempfile.mkdtemp(prefix='durashem-bench-')
    plain = os.path.join(folder, 'listing')
    subprocess.run(['rustc', '-O', '--edition', '2021', '-o', plain, os.path.join(HERE, 'listing.rs')], check=True)
    for name, (plan, trace) in (('light load, 4 servers', light()), ('overload, 32 servers', crowded())):
        with open(os.path.join(folder, 'plan.bin'), 'wb') as file:
            file.write(plan)
        with open(os.path.join(folder, 'trace.bin'), 'wb') as file:
            file.write(trace)
        texts = [subprocess.run([p], cwd=folder, capture_output=True, check=True).stdout for p in (ours, plain)]
        if texts[0] != texts[1]:
            sys.exit(f'{name}: the listings differ')
        lines = texts[0].count(b'\n')
        ratios = []
        times = ([], [])
        with open(os.devnull, 'wb') as out:
            for _ in range(rounds):
                pair = [user_time(p, folder, out) for p in (ours, plain)]
                times[0].append(pair[0])
                times[1].append(pair[1])
                ratios.append(pair[0] / pair[1])
        ratios.sort()
        print(f'{name}: {lines} lines; ours {min(times[0]):.2f} s, plain Rust {min(times[1]):.2f} s; '
              f'ratio {ratios[len(ratios) // 2]:.2f} ({ratios[0]:.2f} to {ratios[-1]:.2f}) in {rounds} rounds')


if __name__ == '__main__':
    main()
