#!/usr/bin/env python3
"""Times `infer` and `unify` by the built programs `kernel_cases` and `unify_cases`, on generated rows whose sizes double.

usage: bench/kernel_and_unification.py [RUNS]

A file has the declarations and one row. The times are processor times of the whole process, the least of RUNS processes (15 where it is not
given); the time of the same file with the smallest row is taken off. For each form it prints the time and that for each of the size."""
import os
import subprocess
import sys
import tempfile

TOP = os.path.dirname(os.path.dirname(os.path.abspath(__file__)))
NAT = 'family 0 0|Nat|data 0|||=> ; f0 =>\n'
NAT_FOR_UNIFY = 'declare|data 0|||=> ; f0 =>\n'

# a name, the program, the declarations, the sizes, and the row of size n
FORMS = (
    ('`infer` of a function at n arguments', 'kernel_cases', NAT, (12_500, 25_000, 50_000, 100_000),
     lambda n: f'infer 0 1|n|f0 f0 ^>{n}|0 c0 ^@{n}\n'),
    ('`infer` of n arguments in one another', 'kernel_cases', NAT, (250, 500, 1_000, 2_000), lambda n: f'infer 0 1|n||c1 c0 ^{n}\n'),
    ('`check` of n lambdas', 'kernel_cases', NAT, (250, 500, 1_000, 2_000), lambda n: f'check 0 1|n||f0 c0 ^\\:{n}|f0 f0 ^>{n}\n'),
    ('`unify` of n equations over 2 n variables', 'unify_cases', NAT_FOR_UNIFY, (50, 100, 200, 400),
     lambda n: f'all 0 9|n|{2 * n} times f0|{n} times 0 = c1 {n} @\n'),
)


def seconds(program, path):
    process = subprocess.Popen([program, path], stdout=subprocess.DEVNULL)
    _, status, usage = os.wait4(process.pid, 0)
    process.returncode = os.waitstatus_to_exitcode(status)
    if process.returncode != 0:
        sys.exit(f'{path}: status {process.returncode}')
    return usage.ru_utime + usage.ru_stime


def best(program, text, runs):
    with tempfile.NamedTemporaryFile('w', suffix='.txt') as file:
        file.write(text)
        file.flush()
        return min(seconds(program, file.name) for _ in range(runs))


def main():
    runs = int(sys.argv[1]) if len(sys.argv) > 1 else 15
    print('| form | n | ms | µs for each of n |\n|---|---|---|---|')
    for name, crate, head, sizes, row in FORMS:
        program = os.path.join(TOP, 'crates', crate, 'out', crate)
        if not os.access(program, os.X_OK):
            sys.exit(f'{crate} is not built: run `rt run` in crates/{crate} once')
        start = best(program, head + row(1), runs)
        for n in sizes:
            took = best(program, head + row(n), runs) - start
            print(f'| {name} | {n:,} | {took * 1e3:.1f} | {took * 1e6 / n:.2f} |')


if __name__ == '__main__':
    main()
