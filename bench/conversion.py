#!/usr/bin/env python3
"""Times `convert` by the built program `conversion_cases`, on generated files of rows.

usage: bench/conversion.py [RUNS]

Each file has one row again and again. Its terms are built anew for each row, so the file is also run with no depth, where `convert` answers
at once, and that time is taken off. The times are processor times, the least of RUNS processes (15 where it is not given). For each form it
prints, over sizes that double, the time of one call, and that time for each of the size. The answers of all rows are compared."""
import os
import subprocess
import sys
import tempfile

TOP = os.path.dirname(os.path.dirname(os.path.abspath(__file__)))
PROGRAM = os.path.join(TOP, 'crates', 'conversion_cases', 'out', 'conversion_cases')
ROWS = 100
CHAINS = (125, 250, 500, 1_000, 2_000)
DOUBLED = (25, 50, 100, 200, 400)

# a name, the words of the two terms of size n, and the fuel and the depth that are just enough
FORMS = (
    ('a chain with itself', CHAINS, lambda n: (f'suc zero ^{n}', f'suc zero ^{n}', 0, 1)),
    ('a chain with one that differs in a name', CHAINS, lambda n: (f'suc 0 \\1 ^{n}', f'suc 0 \\2 ^{n}', 0, 1)),
    ('a chain with one that differs by a step at its end', CHAINS, lambda n: (f'suc zero ^{n}', f'suc 0 \\ zero @ ^{n}', 1, n + 1)),
    ('doubled, differing in a name', DOUBLED, lambda n: (f'x 0 \\1 &{n}', f'x 0 \\2 &{n}', 0, 1)),
    ('doubled, differing by a step at each leaf', DOUBLED, lambda n: (f'x zero &{n}', f'x 0 \\ zero @ &{n}', 1, n + 1)),
    ('`plus n n` with the numeral of 2 n', CHAINS,
     lambda n: (f'plus suc zero ^{n} @ suc zero ^{n} @', f'suc zero ^{2 * n}', 1, n + 2)),
)


def seconds(path, answer):
    """The processor time of one run, whose rows all have this answer."""
    with tempfile.TemporaryFile() as out:
        process = subprocess.Popen([PROGRAM, path], stdout=out)
        _, status, usage = os.wait4(process.pid, 0)
        process.returncode = os.waitstatus_to_exitcode(status)
        out.seek(0)
        lines = out.read().decode().splitlines()
    if process.returncode != 0 or len(lines) != ROWS or not all(line.endswith(': ' + answer) for line in lines):
        sys.exit(f'{path}: status {process.returncode}, {lines[:1]}')
    return usage.ru_utime + usage.ru_stime


def best(row, answer, runs):
    with tempfile.NamedTemporaryFile('w', suffix='.txt') as file:
        file.write(row * ROWS)
        file.flush()
        return min(seconds(file.name, answer) for _ in range(runs))


def main():
    runs = int(sys.argv[1]) if len(sys.argv) > 1 else 15
    if not os.access(PROGRAM, os.X_OK):
        sys.exit('conversion_cases is not built: run `rt run` in crates/conversion_cases once')
    print('| terms | n | µs | µs for each of n |\n|---|---|---|---|')
    for name, sizes, terms in FORMS:
        for n in sizes:
            left, right, fuel, depth = terms(n)
            whole = best(f'all {fuel} {depth}|{n}|{left}|{right}\n', 'yes', runs)
            built = best(f'all {fuel} 0|{n}|{left}|{right}\n', 'out of depth', runs)
            micros = max(whole - built, 0) / ROWS * 1e6
            print(f'| {name} | {n:,} | {micros:,.1f} | {micros / n:.3f} |', flush=True)


if __name__ == '__main__':
    main()
