#!/usr/bin/env python3
"""Times the built program on texts that are short and hard.

usage: bench/hostile.py PROGRAM [RUNS]

PROGRAM is the built `elab_cli`. Each text makes a careless elaborator take time that is quadratic, cubic or exponential in its length. Each has
to be answered, in most cases that a term is too large, within its seconds and within MEGABYTES. For each text a line has the best time of RUNS
runs (3 where it is not given), the peak memory and the first line of the answer. The status is 1 if an answer is another one or a limit is passed."""
import sys

from measure import arguments, check

MEGABYTES = 1024
SECONDS = 2
# groups nested in the types of groups: their terms are small as the program holds them
SECONDS_OF_NESTED_GROUPS = 1
# a refusal whose term is itself made of some four million places, and has to be made before it is told (docs/BENCHMARKS.md)
SECONDS_OF_A_LARGE_REFUSAL = 10


def names(n, name='x'):
    return ' '.join([name] * n)


def numbered(n):
    return ' '.join(f'f{i}' for i in range(n))


def block(*lines):
    return 'postulate\n' + ''.join(f'  {line}\n' for line in lines)


def group_over_variable(n):
    """A group of n names, in whose type an earlier variable stands."""
    return block(f'f : (A : Set) ({names(n)} : A) → Set')


def group_over_application(n):
    """A group of n names over an application to n arguments."""
    return block('A : Set', f'F : ({names(n)} : Set) → Set', f'f : ({names(n)} : F {names(n, "A")}) → A')


def group_over_group(n, m):
    """A group of n names over a closed type of m domains."""
    return block(f'f : ({names(n)} : ({names(m)} : Set) → Set) → Set')


def application(domains, arguments):
    """A function of so many domains at so many arguments."""
    return block('A : Set', f'F : ({names(domains)} : Set) → Set', f'y : F {names(arguments, "A")}')


def dependent_application(n):
    """A function of n domains, whose codomain speaks of each variable, at n arguments."""
    variables = ' '.join(f'x{i}' for i in range(n))
    values = names(n, 'A')
    return block('A : Set', f'P : ({names(n)} : Set) → Set', f'F : ({variables} : Set) → P {variables} → Set', f'p : P {values}', f'y : F {values} p')


def argument_under_binders(n):
    """An argument of n domains over an outer variable, which is put under up to n binders. What it makes is no type, as arguments are left out."""
    return block(f'F : (x : Set1) ({names(n, "y")} : x) → Set', f'z : (v : Set) → F (({names(n, "a")} : v) → Set)')


def variable_of_long_type(n, m):
    """A variable of a type of m domains that stands in the types of n others."""
    long = f'({names(m, "a")} : Set) → Set'
    return block(f'P : ({long}) → Set', f'f : (x : {long}) ({names(n, "y")} : P x) → Set')


def nested(levels):
    """A type so many pairs of parentheses deep."""
    return '(' * levels + 'A' + ' → A)' * levels


def nested_line(n, levels):
    """n declarations of one line, of a type that is nested so deep."""
    return block('A : Set', f'{numbered(n)} : {nested(levels)} → A')


def nested_group(n, levels):
    """A group of n names of a type that is nested so deep."""
    return block('A : Set', f'f : ({names(n)} : {nested(levels)}) → A')


def nested_groups_closed(levels):
    """Groups of two names, each in the type of the one around it: as a tree the term doubles with each level."""
    return block('f : ' + '(x x : ' * levels + 'Set' + ') → Set' * levels)


def nested_groups_open(levels):
    """The same over an outer variable, so that the type of the second name of a group is a term of its own."""
    return block('f : (v : Set) → ' + '(x x : ' * levels + 'v' + ') → v' * levels)


COMPLETE, TOO_LARGE, NOT_A_FUNCTION, NOT_A_TYPE = 'complete', 'TooLarge', 'NotAFunction', 'NotAType'
# what it is, the text, what stands in the first line of its answer, and the seconds that it may take
TEXTS = (
    ('200,000 names over an earlier variable', group_over_variable(200_000), TOO_LARGE, SECONDS),
    ('1,900 names over an earlier variable', group_over_variable(1_900), COMPLETE, SECONDS),
    ('100,000 arguments of 100,000 domains', application(100_000, 100_000), TOO_LARGE, SECONDS),
    ('100,000 arguments of 1,900 domains', application(1_900, 100_000), NOT_A_FUNCTION, SECONDS),
    ('1,900 arguments of 1,900 domains', application(1_900, 1_900), COMPLETE, SECONDS),
    ('950 arguments of which the codomain speaks', dependent_application(950), COMPLETE, SECONDS),
    ('an argument of 1,900 domains under 1,900 binders', argument_under_binders(1_900), NOT_A_TYPE, SECONDS_OF_A_LARGE_REFUSAL),
    ('500 names over an application to 500 arguments', group_over_application(500), COMPLETE, SECONDS),
    ('1,900 names over an application to 1,900 arguments', group_over_application(1_900), TOO_LARGE, SECONDS),
    ('700 names over 1,200 domains', group_over_group(700, 1_200), TOO_LARGE, SECONDS),
    ('100,000 names over 100,000 domains', group_over_group(100_000, 100_000), TOO_LARGE, SECONDS),
    ('a variable of 900 domains in 900 types', variable_of_long_type(900, 900), COMPLETE, SECONDS),
    ('5,000 declarations of a type nested 195 deep', nested_line(5_000, 195), COMPLETE, SECONDS),
    ('5,000 names of a type nested 195 deep', nested_group(5_000, 195), TOO_LARGE, SECONDS),
    ('groups nested 24 deep', nested_groups_closed(24), TOO_LARGE, SECONDS_OF_NESTED_GROUPS),
    ('groups nested 190 deep', nested_groups_closed(190), TOO_LARGE, SECONDS_OF_NESTED_GROUPS),
    ('groups nested 190 deep over an outer variable', nested_groups_open(190), TOO_LARGE, SECONDS_OF_NESTED_GROUPS),
)


def main():
    program, runs = arguments(__doc__)
    passed = True
    print('| text | bytes | s | peak MB | answer | |\n|---|---|---|---|---|---|')
    for name, text, wanted, seconds in TEXTS:
        one = check(program, text, runs)
        faults = []
        if wanted not in one.answer():
            faults.append(f'wanted {wanted}')
        if one.seconds > seconds:
            faults.append(f'over {seconds} s')
        if one.megabytes > MEGABYTES:
            faults.append(f'over {MEGABYTES} MB')
        passed = passed and not faults
        print(f'| {name} | {len(text.encode()):,} | {one.seconds:.3f} | {one.megabytes:.0f} | {one.answer()} | {", ".join(faults)} |', flush=True)
    sys.exit(0 if passed else 1)


if __name__ == '__main__':
    main()
