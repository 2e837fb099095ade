"""Compares whole listings of the program durashem with the model's, on as many fresh seeds as one likes.

    python3 compare.py PROGRAM [FIRST [COUNT]]

PROGRAM is crates/durashem/out/durashem. The flights of the seeds FIRST, FIRST + 1, .. are flown (1 and 200, if they are not named); most are short,
and one in fifty has some thousand ticks. Each difference is told with its seed; its files stay in the folder that is named. At the end a
summary says how many flights and lines were compared.
"""

import os
import subprocess
import sys
import tempfile

import durashem_model as model
import generate


def fly(program, folder, plan, trace, rule):
    plan_path = os.path.join(folder, 'plan.bin')
    trace_path = os.path.join(folder, 'trace.bin')
    with open(plan_path, 'wb') as out:
        out.write(plan)
    with open(trace_path, 'wb') as out:
        out.write(trace)
    done = subprocess.run([program, plan_path, trace_path, '--rule', rule], capture_output=True)
    return done.returncode, done.stdout


def main():
    program = os.path.abspath(sys.argv[1])
    first = int(sys.argv[2]) if len(sys.argv) > 2 else 1
    count = int(sys.argv[3]) if len(sys.argv) > 3 else 200
    folder = tempfile.mkdtemp(prefix='durashem-')
    lines = differences = faults = 0
    for number in range(count):
        seed = first + number
        plan, trace, rule = generate.fresh(seed)
        told, fault = model.listing(plan, trace, model.rule_of(rule))
        text = ''.join(line + '\n' for line in told).encode('ascii')
        status, printed = fly(program, folder, plan, trace, rule)
        lines += len(told)
        faults += fault is not None
        if printed != text or status != (0 if fault is None else 1):
            differences += 1
            kept = os.path.join(folder, f'seed{seed}')
            os.makedirs(kept, exist_ok=True)
            for name, data in (('plan.bin', plan), ('trace.bin', trace), ('model.txt', text), ('program.txt', printed)):
                with open(os.path.join(kept, name), 'wb') as out:
                    out.write(data)
            print(f'seed {seed}, rule {rule}: they differ (status {status}); see {kept}')
        if (number + 1) % 100 == 0:
            print(f'{number + 1} flights, {lines} lines, {differences} differences', flush=True)
    print(f'{count} flights from seed {first} on, {faults} of them ended by a fault: {lines} lines compared, {differences} differences')
    sys.exit(1 if differences else 0)


if __name__ == '__main__':
    main()
