#!/usr/bin/env python3
"""Measures what the gate costs for each crate, in processor seconds.

usage: bench/gate.py [NAME ..]      all crates of crates.txt where none is named

For each crate, lowest first, `rt ci NAME` is run twice in a copy of the committed tree, in which the crate has one comment
more, so that nothing of it is known: once without its wrong bodies and once with them. The first run is the crate's own proof
(twice, if it has tests) with its builds and runs; what the second takes more is its wrong bodies. The crates below are proved
once before, and not counted. Other work on the machine makes the numbers greater: let nothing else run."""
import os
import resource
import shutil
import subprocess
import sys
import tempfile

TOP = os.path.dirname(os.path.dirname(os.path.abspath(__file__)))


def crates(top):
    """The crates with the crates below each, in an order in which a crate comes after those below it."""
    below = {}
    with open(os.path.join(top, 'crates.txt'), encoding='utf-8') as lines:
        for line in lines:
            line = line.split('#')[0].strip()
            if line:
                name, _, deps = line.partition(':')
                below[name.split()[0]] = deps.split()
    order = []

    def visit(name):
        if name in below and name not in order:
            for dep in below[name]:
                visit(dep)
            order.append(name)
    for name in below:
        visit(name)
    return order


def seconds(top, name):
    """The processor seconds of `rt ci NAME`, and whether it passed."""
    def spent():
        used = resource.getrusage(resource.RUSAGE_CHILDREN)
        return used.ru_utime + used.ru_stime
    before = spent()
    done = subprocess.run(['rt', 'ci', name], cwd=top, stdin=subprocess.DEVNULL, capture_output=True, text=True, check=False)
    return spent() - before, done.returncode == 0


def touch(top, name):
    """Adds a comment to the root file of the crate."""
    for root in ('lib.rt', 'main.rt'):
        path = os.path.join(top, 'crates', name, 'src', root)
        if os.path.exists(path):
            with open(path, 'a', encoding='utf-8') as file:
                file.write('// measured\n')
            return


def main():
    with tempfile.TemporaryDirectory() as work:
        top = os.path.join(work, 'copy')
        subprocess.run(['git', 'clone', '--quiet', TOP, top], check=True)
        names = sys.argv[1:] or crates(top)
        print('| crate | proof and runs, s | wrong bodies | with them, s |\n|---|---|---|---|')
        for name in names:
            subprocess.run(['rt', 'ci', name], cwd=top, stdin=subprocess.DEVNULL, capture_output=True, check=False)
            edits = os.path.join(top, 'crates', name, 'must-fail')
            aside = os.path.join(work, 'must-fail')
            count = len(os.listdir(edits)) if os.path.isdir(edits) else 0
            touch(top, name)
            if count:
                shutil.move(edits, aside)
            proof, passed = seconds(top, name)
            whole = proof
            if count:
                shutil.move(aside, edits)
                touch(top, name)
                whole, again = seconds(top, name)
                passed = passed and again
            print('| `%s` | %.0f | %d | %.0f |%s' % (name, proof, count, whole, '' if passed else ' FAILED'), flush=True)
            subprocess.run(['git', 'checkout', '--quiet', '.'], cwd=top, check=True)
    return 0


sys.exit(main())
