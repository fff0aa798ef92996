"""Runs of programs, the medians of what they take, and tables."""

import math
import os
import resource
import statistics
import subprocess
import sys
import time
from pathlib import Path
from typing import NamedTuple


LEAST = {"clock": 0.001, "processor": 0.001, "system": 0.001, "sleeps": 0, "forced": 0}


class Taken(NamedTuple):
    """What a run takes: seconds of the clock, seconds of processors, those of them that the system took, and the peak
    of memory in KB. A thread gives its processor up by itself to sleep, and is forced to where another is to run."""

    clock: float
    processor: float
    system: float
    memory: float
    sleeps: float
    forced: float

    def less(self, other):
        """What is taken over another run. No time is below a millisecond, and no count below none."""
        over = Taken(*(mine - others for mine, others in zip(self, other)))
        return over._replace(**{name: max(getattr(over, name), least) for name, least in LEAST.items()})


class Run(NamedTuple):
    """A program with its words, and the file that it reads."""

    command: tuple
    script: Path


def median(samples):
    """The median of each part of samples, which are tuples of numbers."""
    return type(samples[0])(*map(statistics.median, zip(*samples)))


def take(run, text=os.devnull):
    """Runs a program, writes its text to a file, and tells what it took."""
    with open(run.script) as source, open(text, "w") as sink:
        begun = time.perf_counter()
        child = subprocess.Popen(run.command, stdin=source, stdout=sink)
        _, status, usage = os.wait4(child.pid, 0)
        clock = time.perf_counter() - begun
    child.returncode = os.waitstatus_to_exitcode(status)
    if child.returncode != 0:
        give_up(run, child.returncode)
    processor = usage.ru_utime + usage.ru_stime
    return Taken(clock, processor, usage.ru_stime, usage.ru_maxrss, usage.ru_nvcsw, usage.ru_nivcsw)


def give_up(run, status):
    """Ends all with the status of a run, and with that of another one and the first line that it writes."""
    with open(run.script) as source:
        told = subprocess.run(run.command, stdin=source, stdout=subprocess.PIPE, text=True)
    line = told.stdout.partition("\n")[0]
    words = " ".join(map(str, run.command))
    sys.exit(f"{words} < {run.script.name}: status {status}; run again: {line}, status {told.returncode}")


def medians(runs, rounds):
    """The medians of what these runs take, by name. Each round has each of them once."""
    samples = {name: [] for name in runs}
    for _ in range(rounds):
        for name, run in runs.items():
            samples[name].append(take(run))
    return {name: median(taken) for name, taken in samples.items()}


UNKNOWN = 2  # the status of words that a program doesn't know


def is_known(command):
    """Whether a program knows these words. It may fail otherwise: a run of it tells."""
    quiet = {"stdin": subprocess.DEVNULL, "stdout": subprocess.DEVNULL, "stderr": subprocess.DEVNULL}
    return subprocess.run(command, **quiet).returncode != UNKNOWN


def seconds(number):
    return f"{number:.3f}"


def rate(number):
    return f"{number:,.0f}"


def ratio(number, base):
    return f"{number / base:.2f}" if base > 0 else "-"


def least_peak():
    """The KB of this process. The system counts them for each process that it starts."""
    return resource.getrusage(resource.RUSAGE_SELF).ru_maxrss


def is_own(kilobytes):
    """Whether a peak is that of the program alone."""
    return kilobytes > least_peak()


def megabytes(kilobytes):
    return f"{kilobytes / 1024:.0f}" if is_own(kilobytes) else f"<{math.ceil(least_peak() / 1024)}"


def show(title, header, rows):
    """Prints a table. Its first column has words, and the others have numbers."""
    rows = [header, *rows]
    widths = [max(len(row[column]) for row in rows) for column in range(len(header))]
    print(f"\n{title}\n")
    for row in rows:
        cells = [row[0].ljust(widths[0])]
        cells += [cell.rjust(width) for cell, width in zip(row[1:], widths[1:])]
        print("  ".join(cells).rstrip())
    sys.stdout.flush()
