"""The parts of a measurement. Each prints a table.

A time is that of processors, unless the table says otherwise. Where a script has calls, its time is what they take over
the same script without them.
"""

import re
from itertools import takewhile
from pathlib import Path
from typing import NamedTuple

import inputs
import sqlite
from measuring import Run, is_known, is_own, median, medians, megabytes, rate, ratio, seconds, show, take

TOP = Path(__file__).resolve().parent.parent


class Bench:
    """The program that is measured, a folder for scripts and texts, the sizes and rounds that are wanted, and what was
    found wrong."""

    def __init__(self, program, folder, scripts, quick, long):
        self.program = program
        self.folder = folder
        self.scripts = scripts
        self.quick = quick
        self.long = long
        self.rounds = 1 if quick else 3
        self.more_rounds = 1 if quick else 5
        self.faults = []

    def size(self, full):
        """A size, or a tenth of it in a quick measurement."""
        return full // 10 if self.quick else full

    def run(self, words, script):
        return Run((self.program, *words), script)

    def knows(self, *words):
        return is_known((self.program, *words))

    def path(self, name):
        """Where a script of this name is."""
        return self.folder / f"{name.replace(' ', '-')}.sql"

    def write(self, name, *parts):
        """Writes a script of parts, each of which has pieces of text."""
        path = self.path(name)
        with open(path, "w") as file:
            for part in parts:
                file.writelines(part)
        return path

    def load(self, warehouses, calls):
        """The script of a load of TPC-C: one that was given, or else that of the program."""
        name = f"tpcc-{warehouses}-{calls}.sql"
        given = self.scripts / name if self.scripts else None
        if given and given.exists():
            return given
        path = self.folder / name
        if not path.exists():
            words = ("tpcc", "--script", "--warehouses", str(warehouses), "--calls", str(calls))
            take(self.run(words, Path("/dev/null")), path)
        return path

    def has_loads(self):
        return self.scripts is not None or self.has_tpcc()

    def has_tpcc(self):
        return self.knows("tpcc", "--script", "--calls", "0")

    def costs(self, scripts, words, rounds):
        """What the calls of scripts take by a command, by name. The memory is that of the whole run."""
        runs = {}
        for name, (opening, calls) in scripts.items():
            opened = self.write(f"{name} opening", opening)
            runs[name, "opening"] = self.run(words, opened)
            runs[name, "whole"] = self.run(words, self.write(name, lines_of(opened), calls))
        taken = medians(runs, rounds)
        return {name: cost(taken[name, "whole"], taken[name, "opening"]) for name in scripts}


def cost(whole, opening):
    return whole.less(opening)._replace(memory=whole.memory)


# Texts that the program writes.


def lines_of(path):
    with open(path) as file:
        yield from file


def part_of(text, begin, end):
    """The lines of a text between a line and the next one that begins so."""
    within = False
    for line in lines_of(text):
        if within and line.startswith(end):
            return
        if within:
            yield line.rstrip("\n")
        within = within or line == begin + "\n"


ROUNDS = re.compile(r"r?\d+ \d+ starts [\d,]+ runs (\S+)")


def rounds_of(text):
    """The rounds of each call, as a text's history writes them."""
    return [ROUNDS.fullmatch(line)[1] for line in part_of(text, "history", "journal")]


class Rounds(NamedTuple):
    """Of a history: the statements of first rounds and those executed again, the calls that executed some again, and
    those that moved."""

    first: int
    again: int
    calls: int
    moves: int


def rounds_in(text):
    """The rounds of a text's history. One without a number counts as none."""
    first = again = calls = moves = 0
    for rounds in (each.split("+") for each in rounds_of(text)):
        counts = [0 if number == "-" else int(number.rstrip("xm")) for number in rounds]
        first += counts[0]
        again += sum(counts[1:])
        calls += len(rounds) > 1
        moves += any(number.endswith("m") for number in rounds)
    return Rounds(first, again, calls, moves)


# Calls of TPC-C.


def with_journal(bench, script):
    """A script with the journal that `run` writes for it."""
    text = bench.folder / "run.txt"
    take(bench.run(("run",), script), text)
    events = part_of(text, "journal", "table ")
    return bench.write(f"{script.stem}-journal", lines_of(script), inputs.journal(events))


def calls(bench):
    counts = [bench.size(count) for count in (5000, 10000, 20000, 40000)]
    if bench.quick:
        counts.pop()
    show("Calls of TPC-C on one warehouse", CALLS, call_rows(taken_by_calls(bench, 1, counts), counts))
    count = bench.size(10000)
    rows = [row for warehouses in (4, 16) for row in warehouse_rows(bench, warehouses, count)]
    show(f"{rate(count)} calls of TPC-C on more warehouses", WAREHOUSES, rows)


def taken_by_calls(bench, warehouses, counts):
    """What scripts take by each command, by the number of their calls. One of them has no call."""
    runs = {}
    for count in (0, *counts):
        script = bench.load(warehouses, count)
        runs["serial", count] = bench.run(("serial",), script)
        runs["run", count] = bench.run(("run",), script)
        runs["replay", count] = bench.run(("replay",), with_journal(bench, script))
    return medians(runs, bench.rounds)


CALLS = ["command", "calls", "seconds", "calls/s", "of serial", "growth", "MB", "KB a call", "over serial"]


def call_rows(taken, counts):
    """Growth is that of the seconds from the second count on. KB a call are those of the calls over the first count."""
    first, base = counts[:2]
    for command in ("serial", "run", "replay"):
        for count in counts:
            time = time_of(taken, command, count)
            kilobytes = memory_of(taken, command, first, count)
            is_told = count > first and all(is_own(taken[name, first].memory) for name in ("serial", command))
            yield [
                command,
                rate(count),
                seconds(time),
                rate(count / time),
                ratio(time_of(taken, "serial", count), time),
                ratio(time, time_of(taken, command, base)) if count >= base else "",
                megabytes(taken[command, count].memory),
                f"{kilobytes:.1f}" if is_told else "",
                f"{kilobytes - memory_of(taken, 'serial', first, count):.1f}" if is_told else "",
            ]


WAREHOUSES = ["command", "warehouses", "seconds", "calls/s", "of serial", "MB"]


def warehouse_rows(bench, warehouses, count):
    taken = taken_by_calls(bench, warehouses, [count])
    for command in ("serial", "run", "replay"):
        time = time_of(taken, command, count)
        yield [
            command,
            rate(warehouses),
            seconds(time),
            rate(count / time),
            ratio(time_of(taken, "serial", count), time),
            megabytes(taken[command, count].memory),
        ]


def time_of(taken, command, count):
    return taken[command, count].less(taken[command, 0]).processor


def memory_of(taken, command, first, count):
    """The KB that each call over the first count adds to the peak."""
    return (taken[command, count].memory - taken[command, first].memory) / max(count - first, 1)


# Workers.


class Worked(NamedTuple):
    """What the calls of a run take, what its text tells of rounds, and the memory of the whole run. The statements are
    those of first rounds."""

    clock: float
    processor: float
    system: float
    sleeps: float
    forced: float
    statements: float
    again: float
    calls: float
    moves: float
    memory: float


def workers(bench):
    count = bench.size(20000)
    commands = [by_workers(number) for number in ([1, 4, 64] if bench.quick else [1, 2, 4, 8, 64])]
    if bench.knows("run", "--horizon", "16"):
        commands += [by_workers(64, horizon=16), by_workers(4, horizon=1)]
    rows = []
    for number in [1, 4] if bench.quick else [1, 4, 16]:
        case = str(number), bench.load(number, count), bench.load(number, 0)
        rows += worker_rows(bench, case, count, commands, bench.more_rounds)
    show(title_of_workers(count, "calls of TPC-C"), ["words", "warehouses", *WORKERS], rows)
    rows = []
    for name, fee in ("own rows", False), ("a fee row", True):
        opening, calls = inputs.pairs(10000, count, fee)
        case = name, bench.write(name, opening, calls), bench.write(f"{name} opening", opening)
        rows += worker_rows(bench, case, count, [by_workers(number) for number in (1, 2, 4, 8)], bench.more_rounds)
    show(title_of_workers(count, "transfers"), ["words", "bank", *WORKERS], rows)


def by_workers(threads, horizon=None):
    """The words of a command with so many workers."""
    words = ("--threads", str(threads))
    return words if horizon is None else (*words, "--horizon", str(horizon))


def title_of_workers(count, what):
    return f"{rate(count)} {what} by several workers; sleeps, forced and again for each 100 statements"


WORKERS = [
    "clock",
    "calls/s",
    "rate of one",
    "processors",
    "time of one",
    "system",
    "sleeps",
    "us a sleep",
    "forced",
    "again",
    "calls again",
    "moved",
    "MB",
]


def worker_rows(bench, case, count, commands, rounds):
    name, load, empty = case
    samples = {words: [] for words in commands}
    for _ in range(rounds):
        opening = take(bench.run(("run",), empty))
        for words in commands:
            samples[words].append(worked(bench, bench.run(("run", *words), load), opening))
    one = median(samples[commands[0]])
    return [worker_row(name, count, words, one, median(samples[words])) for words in commands]


def worked(bench, run, opening):
    text = bench.folder / "workers.txt"
    whole = take(run, text)
    over = whole.less(opening)
    return Worked(over.clock, over.processor, over.system, over.sleeps, over.forced, *rounds_in(text), whole.memory)


def worker_row(name, count, words, one, taken):
    return [
        " ".join(words),
        name,
        seconds(taken.clock),
        rate(count / taken.clock),
        ratio(one.clock, taken.clock),
        seconds(taken.processor),
        ratio(taken.processor, one.processor),
        seconds(taken.system),
        of_hundred(taken.sleeps, taken.statements),
        a_sleep(taken, one),
        of_hundred(taken.forced, taken.statements),
        of_hundred(taken.again, taken.statements),
        rate(taken.calls),
        rate(taken.moves),
        megabytes(taken.memory),
    ]


def of_hundred(number, statements):
    return f"{100 * number / max(statements, 1):.2f}"


def a_sleep(taken, one):
    """The microseconds of the clock over those of one worker, for each sleep."""
    over = taken.clock - one.clock
    return f"{1e6 * over / taken.sleeps:.1f}" if over > 0 and taken.sleeps > 0 else ""


def tpcc(bench):
    """The whole of the command `tpcc`: it generates the load, runs it, and sums it up."""
    count = 40_000 if bench.long else bench.size(10_000)
    words = ("tpcc", "--calls", str(count), "--warehouses", "16", "--threads", "4")
    taken = medians({words: bench.run(words, Path("/dev/null"))}, bench.rounds)[words]
    row = [" ".join(words), seconds(taken.clock), seconds(taken.processor), megabytes(taken.memory)]
    show("A load from its numbers to its summary", ["words", "clock", "processors", "MB"], [row])


# The cost of a statement.

GROWTH = {  # with n by `serial` and by `run`
    "COPY and DELETE of n rows": (inputs.delete_of_all_rows, 100_000, 100_000),
    "COPY of n rows and DELETE of half": (inputs.delete_of_half_of_rows, 100_000, 100_000),
    "20 UPDATEs of n rows in a call": (inputs.updates_in_a_call, 10_000, 10_000),
    "n INSERTs with falling keys in a call": (inputs.falling_insertions, 20_000, 20_000),
    "n times MAX and INSERT in a call": (inputs.insertion_at_the_end_in_a_call, 10_000, 10_000),
    "a queue of n rows in a call": (inputs.queue_in_a_call, 5_000, 500),
    "n UPDATEs of one counter in a call": (inputs.counter_in_a_call, 100_000, 100_000),
    "n INSERTs and SELECTs of key 0 in a call": (inputs.own_write_and_zero, 20_000, 20_000),
    "n statements in nested loops": (inputs.nested_loops, 400_000, 400_000),
    "n calls of the last of 256 procedures": (inputs.last_of_many_procedures, 50_000, 50_000),
    "n calls of MAX and INSERT": (inputs.insertion_at_the_end, 10_000, 10_000),
    "n calls of a queue": (inputs.queue, 10_000, 10_000),
    "n calls of one counter": (inputs.one_counter, 50_000, 50_000),
    "n calls of INSERT with random keys": (inputs.insertions_in_random_order, 50_000, 50_000),
    "COPY, and n calls of DELETE with random keys": (inputs.deletions_in_random_order, 50_000, 50_000),
}
LONG_GROWTH = {
    "n INSERTs with falling keys in a call, more": (inputs.falling_insertions, 100_000, 100_000),
    "n calls of INSERT with falling keys": (inputs.insertions_with_falling_keys, 100_000, 100_000),
    "n calls of the last of 256 procedures, more": (inputs.last_of_many_procedures, 150_000, 150_000),
    "n statements in nested loops, more": (inputs.nested_loops, 500_000, 500_000),
}


def growth(bench):
    rows = []
    for case, (script, *sizes) in (GROWTH | LONG_GROWTH if bench.long else GROWTH).items():
        for command, full in zip(("serial", "run"), sizes):
            n = bench.size(full)
            taken = bench.costs({"n": script(n), "2n": script(2 * n)}, (command,), bench.rounds)
            rows.append(growth_row(case, command, n, taken["n"], taken["2n"]))
    header = ["case", "command", "n", "seconds", "seconds of 2n", "growth", "MB", "MB of 2n", "MB growth"]
    show("Growth from n to 2n", header, rows)


def growth_row(case, command, n, once, twice):
    return [
        case,
        command,
        rate(n),
        seconds(once.processor),
        seconds(twice.processor),
        ratio(twice.processor, once.processor),
        megabytes(once.memory),
        megabytes(twice.memory),
        ratio(twice.memory, once.memory) if is_own(once.memory) else "",
    ]


def statements(bench):
    time = dict([*times_of_statements(bench), *times_of_calls(bench)])
    rows = [[name, f"{1e6 * time[name]:.2f}", ratio(time[name], time["SET"])] for name in time]
    show("One statement more in a loop, and one more call, by `run`", ["what", "microseconds", "of SET"], rows)


def times_of_statements(bench):
    calls = bench.size(2000)
    taken = bench.costs(inputs.loops(calls), ("run",), bench.more_rounds)
    for name, (_, often, _) in inputs.STATEMENTS.items():
        yield name, taken[name].less(taken["loop"]).processor / (calls * inputs.TURNS * often)


def times_of_calls(bench):
    calls = bench.size(50_000)
    scripts = {"call of nothing": inputs.empty_calls(calls), "call of one UPDATE": inputs.one_counter(calls)}
    for name, cost in bench.costs(scripts, ("run",), bench.more_rounds).items():
        yield name, cost.processor / calls


# Repairs and validations.


def repairs(bench):
    pairs = bench.size(1000)
    example = lines_of(TOP / "examples" / "new_order.sql")
    opening = "".join(takewhile(lambda line: not line.startswith("CALL"), example))
    scripts = {f"orders {event}": inputs.pairs_of_orders(opening, pairs, event) for event in ("", "A", "M")}
    taken = bench.costs(scripts, ("replay",), bench.more_rounds)
    repair, whole = (taken[name].less(taken["orders "]).processor / pairs for name in ("orders A", "orders M"))
    rows = [
        [f"executed whole again: {inputs.ENTERED} statements", f"{1e6 * whole:.0f}", "1.00"],
        [f"repaired: {inputs.REPAIRED} of {inputs.ENTERED} statements", f"{1e6 * repair:.0f}", ratio(repair, whole)],
    ]
    show("A New-Order that another one hits", ["what", "microseconds", "of whole"], rows)
    check_rounds(bench, "orders A", f"{inputs.ENTERED}+{inputs.REPAIRED}")
    check_rounds(bench, "orders M", f"-+{inputs.ENTERED}m")


def check_rounds(bench, name, expected):
    """Finds a fault where a second one of a pair has other rounds."""
    text = bench.folder / "repairs.txt"
    take(bench.run(("replay",), bench.path(name)), text)
    others = set(rounds_of(text)[1::2]) - {expected}
    bench.faults += [f"`{name}` has the rounds {rounds}, and not {expected}" for rounds in sorted(others)]


def validation(bench):
    rows = []
    for commits in (bench.size(1000), bench.size(2000)):
        scripts = {name: inputs.call_beside_commits(commits, name == "late") for name in ("late", "early")}
        taken = bench.costs(scripts, ("replay",), bench.more_rounds)
        time = taken["late"].less(taken["early"]).processor
        rows.append([f"{rate(commits)} commits of 23 rows", f"{1e3 * time:.1f}", f"{1e6 * time / commits:.1f}"])
    header = ["beside", "milliseconds", "microseconds a commit"]
    show("Validation of a call of 100 look-ups, which nothing hits", header, rows)


# READ ONLY calls.


KINDS = {"READ ONLY": "READ ONLY ", "without the words": ""}


def readers(bench):
    reports(bench, bench.size(100_000), bench.size(50_000))
    look_ups(bench, bench.size(100_000))
    commits_beside(bench, bench.size(20_000))


def reports(bench, count, writers):
    """Reports of many rows, each beside three workers that write these rows."""
    rows = []
    for kind, words in KINDS.items():
        script = bench.write(f"report {kind}", *inputs.report_beside_writers(count, writers, words))
        text = bench.folder / "report.txt"
        taken = take(bench.run(("run", "--threads", "4"), script), text)
        starts, runs = report_in(text)
        if words and (len(starts) > 1 or runs != [str(count + 2)]):
            bench.faults.append(f"a READ ONLY report has the rounds {'+'.join(runs)}")
        rows.append([kind, "+".join(runs), rate(commits_before_end(text)), seconds(taken.clock)])
    header = ["report", "statements", "commits meanwhile", "clock"]
    show(f"A report of {rate(count)} rows beside three workers that write them", header, rows)


HISTORY_LINE = re.compile(r"r?\d+ (\d+) starts ([\d,]+) runs (\S+)")


def report_in(text):
    """The starts and the counts of the rounds of call 0."""
    lines = (HISTORY_LINE.fullmatch(line) for line in part_of(text, "history", "journal"))
    line = next(line for line in lines if line[1] == "0")
    return line[2].split(","), line[3].split("+")


def commits_before_end(text):
    """The number of commits before the event with which call 0 ends."""
    events = takewhile(lambda event: event not in ("R 0", "C 0", "X 0"), part_of(text, "journal", "table "))
    return sum(event[0] in "CX" for event in events)


def look_ups(bench, count):
    rows = []
    for words in (("run",), ("run", "--threads", "4")):
        taken = bench.costs({kind: inputs.look_ups(count, text) for kind, text in KINDS.items()}, words, bench.more_rounds)
        base = taken["without the words"].processor
        for kind in KINDS:
            time = taken[kind].processor
            rows.append([" ".join(words), kind, seconds(time), f"{1e6 * time / count:.2f}", ratio(time, base)])
    header = ["words", "procedure", "seconds", "microseconds a call", "of the last"]
    show(f"{rate(count)} calls of one look-up", header, rows)


def commits_beside(bench, count):
    """What commits cost beside a live call, by whether that is READ ONLY."""
    scripts = {
        f"{kind}, {when}": inputs.commits_beside(count, words, when == "live")
        for kind, words in KINDS.items()
        for when in ("over", "live")
    }
    taken = bench.costs(scripts, ("replay",), bench.more_rounds)
    base = taken["without the words, live"].processor
    rows = [[name, seconds(each.processor), ratio(each.processor, base)] for name, each in taken.items()]
    show(f"{rate(count)} calls of `add` beside a look-up, or after it", ["look-up", "seconds", "of the last"], rows)


# Many calls, and many rows.


def collection(bench):
    counts = [bench.size(100_000), bench.size(200_000)] + ([1_000_000] if bench.long else [])
    rows = []
    for words in (("serial",), ("run",), ("run", "--threads", "4"), ("run", "--threads", "8")):
        scripts = {str(count): inputs.additions(count) for count in counts}
        taken = bench.costs(scripts, words, bench.rounds)
        rows += series(" ".join(words), {count: taken[str(count)] for count in counts})
    header = ["words", "calls", "seconds", "growth", "of linear", "MB", "bytes a call"]
    show("Calls of `add` on 1,000 rows", header, rows)
    held_back(bench, counts[1])
    share_of_collecting(bench, counts[0])


def held_back(bench, count):
    """What a report of so many turns holds back, and what is left of that once more calls have come after it."""
    rows = []
    for calls in (count, 2 * count):
        for turns in (0, 10, 50):
            script = bench.write(f"held-{calls}-{turns}", *inputs.additions_beside_a_report(calls, turns))
            text = bench.folder / "held.txt"
            taken = take(bench.run(("run", "--threads", "4"), script), text)
            rows.append([rate(calls), rate(turns), rate(commits_before_end(text)), seconds(taken.clock), megabytes(taken.memory)])
    header = ["calls", "turns of the report", "commits meanwhile", "clock", "MB"]
    show("Calls of `add` on 1,000 rows beside a report, by `run --threads 4`", header, rows)


def share_of_collecting(bench, count):
    scripts = {name: inputs.additions_in_turn(count, name == COLLECTING) for name in ("without G", COLLECTING)}
    taken = bench.costs(scripts, ("replay",), bench.more_rounds)
    base = taken["without G"].processor
    rows = []
    for name, each in taken.items():
        share = 100 * (each.processor - base) / each.processor
        rows.append([name, seconds(each.processor), f"{share:.1f} %", megabytes(each.memory)])
    show(f"{rate(count)} calls of `add` by `replay`", ["journal", "seconds", "collecting", "MB"], rows)


COLLECTING = f"G after each {inputs.COMMITS} commits"


def rows(bench):
    counts = [bench.size(count) for count in (100_000, 200_000, 400_000)]
    scripts = {count: bench.write(f"rows-{count}", inputs.rows(count)) for count in counts}
    shown = []
    for command in ("serial", "run"):
        runs = {count: bench.run((command,), script) for count, script in scripts.items()}
        shown += series(command, medians(runs, bench.rounds))
    header = ["command", "rows", "seconds", "growth", "of linear", "MB", "bytes a row"]
    show("Rows of two numbers, read and written", header, shown)


def indexes(bench):
    calls, count = bench.size(2000), bench.size(100_000)
    taken = bench.costs(inputs.of_indexes(count, calls), ("run",), bench.more_rounds)
    time = {name: each.less(taken["loop"]).processor / (calls * inputs.TURNS) for name, each in taken.items()}
    names = [name for name in time if name != "loop"]
    shown = []
    for plain, other in zip(names[::2], names[1::2]):
        shown.append([plain, f"{1e6 * time[plain]:.2f}", "1.00"])
        shown.append([other, f"{1e6 * time[other]:.2f}", ratio(time[other], time[plain])])
    show(f"Indexes, on {rate(count)} rows, by `run`", ["what", "microseconds", "of the first"], shown)
    scripts = {columns: (inputs.INDEXED, inputs.tested(columns), inputs.indexed_rows(count)) for columns in ("", "a", "ab")}
    runs = {columns: bench.run(("run",), bench.write(f"indexes-{columns}", *parts)) for columns, parts in scripts.items()}
    memory = {columns: each.memory for columns, each in medians(runs, bench.rounds).items()}
    shown = [["0", megabytes(memory[""]), ""]]
    for columns in ("a", "ab"):
        added = 1024 * (memory[columns] - memory[""]) / (count * len(columns))
        shown.append([str(len(columns)), megabytes(memory[columns]), rate(added)])
    show("Memory of indexes", ["indexes", "MB", "bytes a row and index"], shown)


def series(words, taken):
    """Rows for counts that grow. Growth is the seconds over those of the first count, and `of linear` is growth over
    that of the count. The bytes are those that each over the first count adds to the peak."""
    first, base = next(iter(taken.items()))
    for count, each in taken.items():
        is_told = count > first and is_own(base.memory)
        added = rate(1024 * (each.memory - base.memory) / (count - first)) if is_told else ""
        yield [
            words,
            rate(count),
            seconds(each.processor),
            ratio(each.processor, base.processor),
            ratio(each.processor * first, base.processor * count),
            megabytes(each.memory),
            added,
        ]


PARTS = {
    "calls": calls,
    "workers": workers,
    "tpcc": tpcc,
    "growth": growth,
    "statements": statements,
    "repairs": repairs,
    "validation": validation,
    "readers": readers,
    "collection": collection,
    "rows": rows,
    "indexes": indexes,
    "sqlite": sqlite.part,
}
NEEDS = {  # what a part needs of the bench
    "calls": Bench.has_loads,
    "workers": Bench.has_loads,
    "tpcc": Bench.has_tpcc,
    "sqlite": Bench.has_loads,
}
