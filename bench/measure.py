"""Runs a built program on a text, and tells the time, the peak memory and the answer. What the benches of whole texts share."""
import os
import resource
import subprocess
import sys
import tempfile
import time

# a run that takes more than this is ended, so that a bench ends too
SECONDS_AT_MOST = 60
BYTES_AT_MOST = 8 << 30


class Run:
    """What one run took, and what it wrote."""

    def __init__(self, seconds, kilobytes, status, out):
        self.seconds = seconds
        self.megabytes = kilobytes / 1024
        self.status = status
        self.out = out

    def answer(self):
        """The first line of what was written."""
        return self.out.split('\n', 1)[0] if self.out else f'nothing, status {self.status}'


def bounded():
    resource.setrlimit(resource.RLIMIT_CPU, (SECONDS_AT_MOST, SECONDS_AT_MOST))
    resource.setrlimit(resource.RLIMIT_AS, (BYTES_AT_MOST, BYTES_AT_MOST))


def run(words):
    """One run of the program with these words, from its start to its exit."""
    with tempfile.TemporaryFile() as out:
        start = time.perf_counter()
        process = subprocess.Popen(words, stdout=out, preexec_fn=bounded)
        _, status, usage = os.wait4(process.pid, 0)
        seconds = time.perf_counter() - start
        process.returncode = os.waitstatus_to_exitcode(status)
        out.seek(0)
        return Run(seconds, usage.ru_maxrss, process.returncode, out.read().decode())


def check(program, text, runs):
    """The quickest of so many checks of the text."""
    with tempfile.NamedTemporaryFile('w', encoding='utf-8', suffix='.agda') as file:
        file.write(text)
        file.flush()
        return min((run([program, 'check', file.name]) for _ in range(runs)), key=lambda one: one.seconds)


def arguments(usage):
    """The program that is named, and the number of runs, which is 3 where it is not given."""
    if len(sys.argv) not in (2, 3):
        sys.exit(usage)
    program = os.path.abspath(sys.argv[1])
    if not os.access(program, os.X_OK):
        sys.exit(f'{sys.argv[1]} is no program')
    return program, int(sys.argv[2]) if len(sys.argv) == 3 else 3
