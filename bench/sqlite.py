"""The same calls on SQLite: in memory, with prepared statements, in one thread."""

import subprocess
from itertools import zip_longest
from pathlib import Path

from measuring import Run, medians, megabytes, rate, ratio, seconds, show, take

SOURCE = Path(__file__).resolve().parent / "sqlite.c"


def has_header():
    """Whether there are a C compiler and SQLite's header."""
    command = ["cc", "-E", "-x", "c", "-"]
    quiet = {"stdout": subprocess.DEVNULL, "stderr": subprocess.DEVNULL}
    try:
        return subprocess.run(command, input=b"#include <sqlite3.h>\n", **quiet).returncode == 0
    except FileNotFoundError:
        return False


def built(folder):
    """A program of SQLite and TPC-C's procedures, or None where the compiler has told why it builds none."""
    path = folder / "sqlite"
    command = ["cc", "-O2", "-o", path, SOURCE, "-lsqlite3"]
    return path if subprocess.run(command).returncode == 0 else None


def part(bench):
    if not has_header():
        print("\nsqlite: skipped, since its program can't be built without cc and sqlite3.h")
        return
    other = built(bench.folder)
    if other is None:
        bench.faults.append("the program of SQLite can't be built")
        return
    count = bench.size(10000)
    script, opening = bench.load(1, count), bench.load(1, 0)
    commands = {"SQLite": (other,), "serial": (bench.program, "serial"), "run": (bench.program, "run")}
    differing = names_of_differing(bench, script, commands)
    bench.faults += [f"the replies or tables of `{name}` aren't those of SQLite" for name in differing]
    runs = {(name, each): Run(command, each) for name, command in commands.items() for each in (script, opening)}
    taken = medians(runs, bench.rounds)
    rows = [row(name, count, taken, script, opening) for name in commands]
    told = "`serial` and `run` give its replies and tables"
    if differing:
        told = f"OTHER REPLIES OR TABLES BY {', '.join(differing)}"
    show(f"{rate(count)} calls of TPC-C beside SQLite: {told}", HEADER, rows)


HEADER = ["system", "seconds", "calls/s", "of SQLite", "MB"]


def row(name, count, taken, script, opening):
    base, time = (taken[each, script].less(taken[each, opening]).processor for each in ("SQLite", name))
    memory = taken[name, script].memory
    return [name, seconds(time), rate(count / time), ratio(base, time), megabytes(memory)]


def names_of_differing(bench, script, commands):
    """The names of the commands whose replies or tables aren't those of SQLite."""
    texts = {name: bench.folder / f"{name}.txt" for name in commands}
    for name, command in commands.items():
        take(Run(command, script), texts[name])
    return [name for name in commands if not are_alike(texts["SQLite"], texts[name])]


def are_alike(*texts):
    """Whether texts have the same replies, in the order of calls, and the same tables."""
    return all(len(set(lines)) == 1 for lines in zip_longest(*map(outcome_of, texts)))


def outcome_of(text):
    """The lines of replies and tables of a text, without its history and its journal."""
    told = False
    with open(text) as lines:
        for line in lines:
            told = line == "history\n" or told and not line.startswith("table ")
            if not told:
                yield line
