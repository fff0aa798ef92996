"""Scripts whose time and memory are measured.

A script is a pair: the tables and procedures, and the calls with the journal. Both are lists or generators of pieces of
text. What the calls take is the difference of two runs: with them and without. The program writes the rows that are
left. So rows that calls delete are read among the calls: then the run without calls doesn't write them either.
"""

from itertools import accumulate, chain
from random import Random

ROWS = 1000  # as many rows as a ROWS argument may have
COMMITS = 64  # from one collection of `run` to the next


def block(table, rows):
    """A COPY of rows."""
    yield f"COPY {table} <<\n"
    for row in rows:
        yield ",".join(map(str, row)) + "\n"
    yield ">>\n"


def rows_of(numbers):
    """A ROWS argument with one number in each row."""
    return "ROWS (" + ", ".join(f"({number})" for number in numbers) + ")"


def journal(events):
    """A JOURNAL of events such as `B 0`."""
    yield "JOURNAL <<\n"
    for event in events:
        yield event + "\n"
    yield ">>\n"


def repeated(count, call):
    """So many calls. `call` makes one of its number."""
    return (f"CALL {call(number)};\n" for number in range(count))


# Cases of growth: each makes a script for n.

NUMBERS = "CREATE TABLE t (id INT, v INT, PRIMARY KEY (id));\n"


def numbered(table, count):
    """A COPY of so many rows with the keys from 0 on."""
    return block(table, ((number, 0) for number in range(count)))


def in_random_order(count):
    """The numbers from 0 on, in an order that is the same each time."""
    return Random(count).sample(range(count), count)


def loop(body):
    """A procedure that executes a body for each pair of rows."""
    return f"""CREATE PROCEDURE p (:outer ROWS (i INT), :inner ROWS (i INT)) DECLARE :k = 0; DECLARE :x = 0; BEGIN
  FOR :a IN :outer DO FOR :b IN :inner DO {body} END FOR; END FOR;
END;
"""


def call_of_loop(n):
    """A call that executes the body n times. An n over 1,000 is a multiple of it."""
    inner = min(n, ROWS)
    return f"CALL p({rows_of(range(n // inner))}, {rows_of(range(inner))});\n"


def delete_of_all_rows(n):
    procedure = "CREATE PROCEDURE p () BEGIN DELETE FROM t; END;\n"
    return [NUMBERS, procedure], chain(numbered("t", n), ["CALL p();\n"])


def delete_of_half_of_rows(n):
    procedure = "CREATE PROCEDURE p () BEGIN DELETE FROM t WHERE v = 0; END;\n"
    rows = block("t", ((number, number % 2) for number in range(n)))
    return [NUMBERS, procedure], chain(rows, ["CALL p();\n"])


def updates_in_a_call(n):
    procedure = f"CREATE PROCEDURE p () BEGIN {20 * 'UPDATE t SET v = v + 1; '}END;\n"
    return chain([NUMBERS, procedure], numbered("t", n)), ["CALL p();\n"]


def falling_insertions(n):
    return [NUMBERS, loop("SET :k = :k - 1; INSERT INTO t VALUES (:k, 0);")], [call_of_loop(n)]


def insertion_at_the_end_in_a_call(n):
    procedure = loop("SELECT MAX(id) INTO :x FROM t; INSERT INTO t VALUES (:x + 1, 0);")
    return [NUMBERS, procedure, *numbered("t", 1)], [call_of_loop(n)]


def queue_in_a_call(n):
    procedure = loop("SELECT id INTO :x FROM t; DELETE FROM t WHERE id = :x;")
    return [NUMBERS, procedure], chain(numbered("t", n), [call_of_loop(n)])


def counter_in_a_call(n):
    procedure = loop("UPDATE t SET v = v + 1 WHERE id = 0;")
    return [NUMBERS, procedure, *numbered("t", 1)], [call_of_loop(n)]


def own_write_and_zero(n):
    procedure = loop("SET :k = :k + 1; INSERT INTO t VALUES (:k, 0); SELECT v INTO :x FROM t WHERE id = 0;")
    return [NUMBERS, procedure, *numbered("t", 1)], [call_of_loop(n)]


def last_of_many_procedures(n):
    procedures = (f"CREATE PROCEDURE p{k} () BEGIN PRINT {k}; END;\n" for k in range(256))
    return [NUMBERS, *procedures], repeated(n, lambda _: "p255()")


def insertion_at_the_end(n):
    procedure = """CREATE PROCEDURE p () DECLARE :m = 0; BEGIN
  SELECT MAX(id) INTO :m FROM t; INSERT INTO t VALUES (:m + 1, 0);
END;
"""
    return [NUMBERS, procedure], repeated(n, lambda _: "p()")


def queue(n):
    procedure = """CREATE PROCEDURE p () DECLARE :first = 0; DECLARE :last = 0; BEGIN
  SELECT MIN(id) INTO :first FROM t; DELETE FROM t WHERE id = :first;
  SELECT MAX(id) INTO :last FROM t; INSERT INTO t VALUES (:last + 1, 0);
END;
"""
    return [NUMBERS, procedure, *numbered("t", 100)], repeated(n, lambda _: "p()")


def one_counter(n):
    procedure = "CREATE PROCEDURE p () BEGIN UPDATE t SET v = v + 1 WHERE id = 0; END;\n"
    return [NUMBERS, procedure, *numbered("t", 1)], repeated(n, lambda _: "p()")


def insertions_in_random_order(n):
    keys = in_random_order(n)
    procedure = "CREATE PROCEDURE p (:k INT) BEGIN INSERT INTO t VALUES (:k, 0); END;\n"
    return [NUMBERS, procedure], repeated(n, lambda number: f"p({keys[number]})")


def insertions_with_falling_keys(n):
    procedure = "CREATE PROCEDURE p (:k INT) BEGIN INSERT INTO t VALUES (:k, 0); END;\n"
    return [NUMBERS, procedure], repeated(n, lambda number: f"p({n - number})")


def deletions_in_random_order(n):
    keys = in_random_order(n)
    procedure = "CREATE PROCEDURE p (:k INT) BEGIN DELETE FROM t WHERE id = :k; END;\n"
    return [NUMBERS, procedure], chain(numbered("t", n), repeated(n, lambda number: f"p({keys[number]})"))


def nested_loops(n):
    return [loop("SET :k = :k + 1;")], [call_of_loop(n)]


# Scripts that differ in a statement of a loop.

TURNS = 50
STATEMENTS = {  # with how often a turn has each, and how the call ends
    "SET": ("SET :x = :k; ", 4, ""),
    "IF": ("IF :k = 0 THEN END IF; ", 4, ""),
    "PRINT": ("PRINT :k; ", 4, ""),
    "SELECT of a key": ("SELECT v INTO :x FROM t WHERE id = :r.i; ", 4, ""),
    "SELECT COUNT of a key": ("SELECT COUNT(*) INTO :x FROM t WHERE id = :r.i; ", 4, ""),
    "UPDATE of a key": ("UPDATE t SET v = :k WHERE id = :r.i; ", 1, ""),
    "UPDATE of a key, rolled back": ("UPDATE t SET v = :k WHERE id = :r.i; ", 1, "ROLLBACK 'no'; "),
    "INSERT, and the text of its row": ("INSERT INTO u VALUES (:k, 0); ", 1, ""),
    "DELETE of a key, and the COPY of its row": ("DELETE FROM u WHERE id = :k; ", 1, ""),
}


def loop_with(text, calls, end=""):
    """Calls that execute a text in each of 50 turns, and then an end. Their keys rise from call to call. If the text
    deletes rows, they have a COPY of these before them."""
    tables = "".join(f"CREATE TABLE {name} (id INT, v INT, PRIMARY KEY (id));\n" for name in "tu")
    procedure = f"""CREATE PROCEDURE p (:first INT, :rows ROWS (i INT)) DECLARE :k = 0; DECLARE :x = 0; BEGIN
  SET :k = :first - 1; FOR :r IN :rows DO SET :k = :k + 1; {text}END FOR;
  {end}END;
"""
    rows = calls * TURNS if text.startswith("DELETE") else 0
    call = lambda number: f"p({number * TURNS}, {rows_of((number * TURNS + 7 * i) % ROWS for i in range(TURNS))})"
    return [tables, procedure, *numbered("t", ROWS)], chain(numbered("u", rows), repeated(calls, call))


def loops(calls):
    """The scripts of statements by name, and that of a loop without any."""
    scripts = {name: loop_with(text * often, calls, end) for name, (text, often, end) in STATEMENTS.items()}
    return {"loop": loop_with("", calls), **scripts}


# Indexes: rows of which three share a value.

SHARED = 3
INDEXED = "CREATE TABLE t (id INT, a INT, b INT, v INT, PRIMARY KEY (id));\n"


def tested(columns):
    """A procedure that tests these columns by `=` and is never called. So they are indexed."""
    tests = " AND ".join(f"{column} = 0" for column in columns)
    return [f"CREATE PROCEDURE never () BEGIN DELETE FROM t WHERE {tests}; END;\n"] if columns else []


def indexed_rows(count):
    return block("t", ((number, number // SHARED, number // SHARED, 0) for number in range(count)))


def indexed_loop(text, columns, rows, calls, first):
    """Calls that execute a text in each of 50 turns, on rows with indexes of these columns. A turn has the next number
    from `first` on, or one of the numbers of rows."""
    procedure = f"""CREATE PROCEDURE p (:rows ROWS (i INT)) DECLARE :k = 0; DECLARE :x = 0; BEGIN
  FOR :r IN :rows DO SET :k = :r.i; {text}END FOR;
END;
"""
    number = lambda turn: first + turn if first else 7919 * turn % rows
    call = lambda at: f"p({rows_of(number(at * TURNS + turn) for turn in range(TURNS))})"
    return [INDEXED, procedure, *tested(columns), *indexed_rows(rows)], repeated(calls, call)


def of_indexes(rows, calls):
    """The scripts by what they do: look-ups, insertions and updates."""
    script = lambda text, columns="", first=0: indexed_loop(text, columns, rows, calls, first)
    insert = "INSERT INTO t VALUES (:k, :k, :k, 0); "
    update = "UPDATE t SET v = 1 WHERE id = :k; "
    return {
        "loop": script(""),
        "look-up by the key": script("SELECT SUM(v) INTO :x FROM t WHERE id = :k; "),
        f"look-up of {SHARED} rows by an index": script(f"SELECT SUM(v) INTO :x FROM t WHERE a = :k / {SHARED}; ", "a"),
        "INSERT": script(insert, "", rows),
        "INSERT with two indexes": script(insert, "ab", rows),
        "UPDATE": script(update),
        "UPDATE beside two indexes": script(update, "ab"),
    }


def empty_calls(count):
    return ["CREATE PROCEDURE p () BEGIN END;\n"], repeated(count, lambda _: "p()")


# Repairs and validations: journals of the same calls.

ENTERED = 92  # statements of a New-Order with five lines
REPAIRED = 17  # those of the second one that a repair executes again
FIRST = "(1, 1, 1, 20170514, ROWS ((1, 1, 5), (2, 1, 5), (3, 1, 5), (4, 1, 5), (5, 1, 5)))"
SECOND = "(1, 1, 2, 20170514, ROWS ((5, 1, 5), (6, 1, 5), (7, 1, 5), (8, 1, 5), (9, 1, 5)))"


def pairs_of_orders(opening, pairs, again):
    """Pairs of New-Orders. The second one of a pair runs whole. With an event `again` the first one commits then, which
    hits the second, and that is executed again by this event. Without it the second one begins after that commit."""
    calls = (f"CALL new_order{FIRST};\nCALL new_order{SECOND};\n" for _ in range(pairs))
    events = (event for number in range(pairs) for event in events_of_pair(2 * number, again))
    return [opening], chain(calls, journal(events))


def events_of_pair(first, again):
    second = first + 1
    steps = [f"S {second}"] * ENTERED
    if again:
        return [f"B {first}", f"B {second}", *steps, f"C {first}", f"{again} {second}", f"C {second}", "G"]
    return [f"B {first}", f"C {first}", f"B {second}", *steps, f"C {second}", "G"]


def call_beside_commits(commits, beside):
    """A call of 100 look-ups, and so many calls that change 23 other rows each. It commits last if they run beside it,
    and first if they don't."""
    procedures = """CREATE PROCEDURE look (:rows ROWS (i INT)) DECLARE :x = 0; BEGIN
  FOR :r IN :rows DO SELECT v INTO :x FROM t WHERE id = :r.i; END FOR;
END;
CREATE PROCEDURE change (:rows ROWS (i INT)) BEGIN
  FOR :r IN :rows DO UPDATE t SET v = v + 1 WHERE id = :r.i; END FOR;
END;
"""
    look = f"CALL look({rows_of(range(100))});\n"
    change = lambda number: f"change({rows_of(ROWS + (37 * number + 41 * i) % ROWS for i in range(23))})"
    opening = [NUMBERS, procedures, *numbered("t", 2 * ROWS)]
    others = (event for other in range(1, commits + 1) for event in (f"B {other}", f"C {other}"))
    ran = ["B 0", *["S 0"] * 101]
    events = chain(ran, others, ["C 0"]) if beside else chain(ran, ["C 0"], others)
    return opening, chain([look], repeated(commits, change), journal(events))


# READ ONLY calls, and the same calls without the words. `words` is `READ ONLY ` or empty.


def report_beside_writers(rows, writers, words):
    """A report that sums up so many rows, one after another, and so many calls after it that each write one of them."""
    procedures = f"""CREATE PROCEDURE report () {words}DECLARE :sum = 0; BEGIN
  FOR :r IN SELECT v FROM t DO SET :sum = :sum + :r.v; END FOR;  PRINT :sum;
END;
CREATE PROCEDURE bump (:i INT) BEGIN UPDATE t SET v = v + 1 WHERE id = :i; END;
"""
    bump = lambda number: f"bump({37 * number % rows})"
    return [NUMBERS, procedures, *numbered("t", rows)], chain(["CALL report();\n"], repeated(writers, bump))


LOOK = "CREATE PROCEDURE look (:i INT) {}DECLARE :v = 0; BEGIN SELECT v INTO :v FROM t WHERE id = :i; PRINT :v; END;\n"


def look_ups(calls, words):
    """Calls of one look-up."""
    look = lambda number: f"look({37 * number % ROWS})"
    return [NUMBERS, LOOK.format(words), *numbered("t", ROWS)], repeated(calls, look)


def commits_beside(commits, words, beside):
    """So many calls of `add`, and a look-up at a row that none of them changes. It begins first, and ends last if they
    commit beside it."""
    (tables, procedure, *copies), adds = additions(commits)
    end = "R 0" if words else "C 0"
    others = (event for other in range(1, commits + 1) for event in (f"B {other}", f"C {other}"))
    events = chain(["B 0", "S 0"], others, [end]) if beside else chain(["B 0", "S 0", end], others)
    opening = [tables, procedure, LOOK.format(words), *copies, *block("t", [(ROWS, 0)])]
    return opening, chain([f"CALL look({ROWS});\n"], adds, journal(events))


# A bank with a hot row.

BANK = """CREATE TABLE acc (id INT, bal INT, PRIMARY KEY (id));
CREATE PROCEDURE transfer (:a INT, :c INT, :x INT) DECLARE :b = 0; DECLARE :d = 0; BEGIN
  SELECT bal INTO :b FROM acc WHERE id = :a;
  IF :b < :x THEN ROLLBACK 'no funds'; END IF;
  SELECT bal INTO :d FROM acc WHERE id = :c;
  UPDATE acc SET bal = :b - :x WHERE id = :a;
  UPDATE acc SET bal = :d + :x WHERE id = :c;
  UPDATE acc SET bal = bal + 1 WHERE id = 0;
  PRINT :b - :x;
END;
"""


def bank(accounts, transfers):
    """Transfers between accounts, each of which adds a fee to account 0. An account is drawn by Zipf's law: the n-th one
    n times less often than the first."""
    random = Random(accounts)
    weights = list(accumulate(1 / number for number in range(1, accounts + 1)))
    drawn = random.choices(range(1, accounts + 1), cum_weights=weights, k=2 * transfers)
    pairs = zip(drawn[::2], drawn[1::2])
    other = lambda one, two: two if two != one else two % accounts + 1
    calls = (f"CALL transfer({one}, {other(one, two)}, {random.randint(1, 9)});\n" for one, two in pairs)
    return [BANK, *block("acc", ((number, 1000) for number in range(accounts + 1)))], calls


def pairs(accounts, transfers, fee):
    """Transfers from each second account to the next one, in turn, with or without the fee of account 0. Without it, calls
    that are near to each other have no row in common."""
    procedure = BANK if fee else BANK.replace("  UPDATE acc SET bal = bal + 1 WHERE id = 0;\n", "")
    call = lambda number: f"CALL transfer({2 * number % accounts + 1}, {2 * number % accounts + 2}, 1);\n"
    return [procedure, *block("acc", ((number, 1000) for number in range(accounts + 1)))], map(call, range(transfers))


# Many short calls.


def additions(calls):
    """Calls that add to one of a thousand rows."""
    procedure = """CREATE PROCEDURE a (:i INT) DECLARE :b = 0; BEGIN
  SELECT v INTO :b FROM t WHERE id = :i; SET :b = :b + 1; UPDATE t SET v = :b WHERE id = :i; PRINT :b;
END;
"""
    return [NUMBERS, procedure, *numbered("t", ROWS)], repeated(calls, lambda number: f"a({37 * number % ROWS})")


def additions_beside_a_report(calls, turns):
    """The same calls, after one that counts the rows of a larger table so many times."""
    (tables, procedure, *copies), adds = additions(calls)
    report = """CREATE TABLE u (id INT, v INT, PRIMARY KEY (id));
CREATE PROCEDURE report (:turns ROWS (i INT)) READ ONLY DECLARE :n = 0; BEGIN
  FOR :r IN :turns DO SELECT COUNT(*) INTO :n FROM u WHERE v >= 0; END FOR;  PRINT :n;
END;
"""
    opening = [tables, report, procedure, *copies, *numbered("u", 100 * ROWS)]
    return opening, chain([f"CALL report({rows_of(range(turns))});\n"], adds)


def additions_in_turn(calls, collected):
    """The same calls with a journal: each commits before the next one begins. If `collected`, old versions are
    collected as often as a worker of `run` does it."""
    opening, adds = additions(calls)
    return opening, chain(adds, journal(events_in_turn(calls, collected)))


def events_in_turn(calls, collected):
    for number in range(calls):
        yield f"B {number}"
        yield f"C {number}"
        if collected and (number + 1) % COMMITS == 0:
            yield "G"


def rows(count):
    """A table of so many rows, and no call."""
    return chain([NUMBERS], numbered("t", count))
