#!/usr/bin/env python3
"""Times the built program on files of data types and postulates, in sizes that double.

usage: bench/families.py PROGRAM [RUNS]

PROGRAM is the built `elab_cli`. A file has so many data types of five constructors, and five postulates for every two of them; another has as many
records of two fields. Of each size a line has the best time of RUNS runs (3 where it is not given), the peak memory and the first line of
the answer. The status is 1 if an answer is another one, if 2,000 data types take SECONDS or MEGABYTES, or if twice as many take more than
RATIO times as long."""
import sys

from measure import arguments, check

SECONDS = 1
MEGABYTES = 150
RATIO = 3
SIZES = (500, 1_000, 2_000, 4_000)


def data_type(i):
    """A data type of five constructors, whose arguments are of this type, of a function type, and of the type before it."""
    return [f'data D{i} : Set where', f'  a{i} : D{i}', f'  b{i} : D{i} → D{i}', f'  c{i} : D{i} → D{i} → D{i}', f'  d{i} : (D{i} → D{i}) → D{i}',
            f'  e{i} : D{max(i - 1, 0)} → D{i}']


def data_types(n):
    """n data types, and behind each two of them five postulates over them and their constructors."""
    lines = []
    for i in range(0, n, 2):
        j = i + 1
        lines += data_type(i) + data_type(j)
        lines += ['postulate', f'  P{i} : D{i} → Set', f'  p{i} : P{i} (b{i} a{i})', f'  f{i} : D{i} → D{j}', f'  Q{i} : D{j} → Set',
                  f'  q{i} : Q{i} (c{j} a{j} (f{i} a{i}))']
    return '\n'.join(lines) + '\n'


def records(n):
    """n records, each with a field of the one before, and five postulates for every two of them."""
    lines = ['postulate', '  A : Set']
    for i in range(n):
        before = f'R{i - 1}' if i else 'A'
        lines += [f'record R{i} : Set where', '  field', f'    f{i} : {before}', f'    g{i} : A']
    lines.append('postulate')
    for i in range(5 * n // 2):
        j = i % n
        lines.append(f'  p{i} : R{j} → A')
    return '\n'.join(lines) + '\n'


def declarations(form, n):
    return n + 5 * n // 2 + (form is records)


def main():
    program, runs = arguments(__doc__)
    passed = True
    print('| form | number | bytes | s | peak MB | ratio | answer | |\n|---|---|---|---|---|---|---|---|')
    for form in (data_types, records):
        last = None
        for n in SIZES:
            text = form(n)
            one = check(program, text, runs)
            wanted = f'complete declarations={declarations(form, n)} '
            faults = []
            if not one.answer().startswith(wanted):
                faults.append(f'wanted {wanted}')
            if n <= 2_000 and one.seconds > SECONDS:
                faults.append(f'over {SECONDS} s')
            if n <= 2_000 and one.megabytes > MEGABYTES:
                faults.append(f'over {MEGABYTES} MB')
            ratio = one.seconds / last if last else None
            if ratio and ratio > RATIO:
                faults.append(f'over {RATIO} times')
            last = one.seconds
            passed = passed and not faults
            shown = f'{ratio:.2f}' if ratio else ''
            print(f'| {form.__name__} | {n:,} | {len(text.encode()):,} | {one.seconds:.3f} | {one.megabytes:.0f} | {shown} | {one.answer()} | {", ".join(faults)} |', flush=True)
    sys.exit(0 if passed else 1)


if __name__ == '__main__':
    main()
