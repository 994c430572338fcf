#!/usr/bin/env python3
"""Times the built program on files of postulates, whose sizes double.

usage: bench/postulates.py PROGRAM [RUNS]

PROGRAM is the built `elab_cli`. First comes the start-up: the answer to no words. Then for each form and each number of declarations a line has
the size of the text, the best time of RUNS runs (3 where it is not given), the peak memory, the time of a declaration, the ratio of the time to
that of the size before, and the first line of the answer. The times are those of the whole process, from start to exit. The status is 1 if an
answer is not that all are declared, a run takes more than SECONDS or MEGABYTES, or a declaration takes more than GROWTH times as long at the
greatest size as at the smallest."""
import sys

from measure import arguments, check, run

SECONDS = 2
MEGABYTES = 1024
GROWTH = 2.5
LIMIT = 1_048_576


def block(lines):
    return 'postulate\n  A : Set\n' + ''.join(f'  {line}\n' for line in lines)


def short_lines(n):
    """n sorts."""
    return block(f'a{i} : Set' for i in range(n))


def lines_of_names(n):
    """n sorts, ten names a line."""
    return block(' '.join(f'a{i}' for i in range(k, k + 10)) + ' : Set' for k in range(0, n, 10))


def lines_with_groups(n):
    """n types with groups of names, in the second of which stand the names of the first."""
    return block(f'f{i} : (X Y : Set) (x y z : X) → (X → Y) → A' for i in range(n))


def long_lines(n):
    """n types of ten arrows each."""
    arrows = ''.join(f'(x{k} : A) → ' for k in range(10))
    return block(f'f{i} : {arrows}A' for i in range(n))


# a form, its text of n declarations, and the numbers of declarations
FORMS = (
    ('`aI : Set`', short_lines, (2_500, 5_000, 10_000, 20_000, 40_000)),
    ('lines of ten names', lines_of_names, (5_000, 10_000, 20_000, 40_000, 80_000)),
    ('types with groups of names', lines_with_groups, (1_000, 2_000, 4_000, 8_000, 16_000)),
    ('ten function types', long_lines, (375, 750, 1_500, 3_000, 6_000)),
)


def main():
    program, runs = arguments(__doc__)
    start = min((run([program]) for _ in range(runs)), key=lambda one: one.seconds)
    print(f'start-up: {start.seconds * 1000:.1f} ms, {start.megabytes:.1f} MB, status {start.status}')
    print('| form | declarations | bytes | ms | peak MB | µs for each | ratio | answer | |\n|---|---|---|---|---|---|---|---|---|')
    passed = True
    for name, make, sizes in FORMS:
        first = before = None
        for n in sizes:
            text = make(n)
            size = len(text.encode())
            assert size <= LIMIT, f'{name}, {n}: {size} bytes'
            one = check(program, text, runs)
            each = one.seconds / n
            first = first or each
            faults = []
            if not one.answer().startswith(f'complete declarations={n + 1} '):
                faults.append('not all are declared')
            if one.seconds > SECONDS:
                faults.append(f'over {SECONDS} s')
            if one.megabytes > MEGABYTES:
                faults.append(f'over {MEGABYTES} MB')
            if n == sizes[-1] and each > GROWTH * first:
                faults.append(f'{each / first:.2f} times as long for each as at {sizes[0]:,}')
            passed = passed and not faults
            ratio = f'{one.seconds / before:.2f}' if before else ''
            before = one.seconds
            measured = f'{size:,} | {one.seconds * 1000:.1f} | {one.megabytes:.1f} | {each * 1e6:.2f} | {ratio}'
            print(f'| {name} | {n:,} | {measured} | {one.answer()} | {", ".join(faults)} |', flush=True)
    sys.exit(0 if passed else 1)


if __name__ == '__main__':
    main()
