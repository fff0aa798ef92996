"""Random scripts: calls that read and write the rows of three tables, some of them hot. A third of the procedures is READ ONLY.

A script is made from texts with names in angle brackets. Each name stands for one of its texts, by chance. The keys of a
script lie one after another, far apart, or below zero, or all in one shard. A third of the tables has no number in its key.
"""

import re
from random import Random

from inputs import block

TABLES = """CREATE TABLE t (k INT, n INT, m INT, PRIMARY KEY (k));
CREATE TABLE u (s TEXT(4), n INT, PRIMARY KEY (s));
CREATE TABLE v (s TEXT(4), k INT, n INT, PRIMARY KEY (s, k));
"""

PROCEDURE = """CREATE PROCEDURE p{} (:a INT, :x INT, :s TEXT(4), :rows ROWS (k INT, n INT)) {}DECLARE :b = 0; DECLARE :c = 0; BEGIN
  <body>PRINT :b, :c;
END;
"""

TEXTS = {
    "body": ["<step>" * count for count in range(2, 9)],
    "step": 6 * ["<plain>"] + ["<branch>", "<branch>", "<loop>"],
    "branch": ["IF <test> THEN <plain>END IF; ", "IF <test> THEN <plain><plain>ELSE <plain>END IF; "],
    "test": [":b > :c", ":found", "NOT :found", ":c % 2 = 0", ":b < :x AND :a > 1", ":s > 'b'"],
    "loop": [
        "FOR :r IN :rows DO <turn><turn>END FOR; ",
        "FOR :r IN :rows DO <turn><turn><turn>END FOR; ",
        "FOR :r IN SELECT k, n FROM t WHERE k >= :a AND k < :a + 9 DO <turn>END FOR; ",
        "FOR :r IN SELECT k, n FROM t WHERE n >= :x ORDER BY n DESC DO <turn>END FOR; ",
        "FOR :r IN SELECT DISTINCT k, n FROM v WHERE s = :s DO <turn>END FOR; ",
    ],
    "turn": 5 * ["<plain>"] + [
        "SET :b = (:b + :r.n) % 1000; ",
        "SELECT n INTO :c FROM t WHERE k = :r.k; ",
        "UPDATE t SET n = n + 1 WHERE k = :r.k; ",
        "UPDATE t SET m = :r.n WHERE k = :r.k; ",
        "UPDATE v SET n = :b WHERE s = :s AND k = :r.k; ",
        "DELETE FROM v WHERE s = :s AND k = :r.k; ",
        "SELECT n INTO :c FROM v WHERE s = :s AND k = :r.k; IF NOT :found THEN INSERT INTO v VALUES (:s, :r.k, :b); END IF; ",
        "PRINT :r.k, :r.n; ",
    ],
    "plain": [
        "SELECT n INTO :b FROM t WHERE k = :a; ",
        "SELECT n INTO :c FROM u WHERE s = :s; ",
        "SELECT n INTO :c FROM v WHERE s = :s AND k = :a; ",
        "SELECT m, n INTO :b, :c FROM t WHERE k > :a OFFSET 1; ",
        "SELECT COUNT(*) INTO :b FROM t WHERE n > :x; ",
        "SELECT SUM(m) INTO :c FROM t WHERE k >= :a; ",
        "SELECT MIN(k) INTO :c FROM t; ",
        "SELECT MAX(n) INTO :b FROM v; ",
        "SELECT COUNT(DISTINCT n) INTO :c FROM v WHERE s = :s; ",
        "SET :b = (:b + :x) % 1000; ",
        "SET :c = (:b * 2 - :c) % 1000; ",
        "UPDATE t SET n = :b WHERE k = :a; ",
        "UPDATE t SET n = n + :x, m = :c WHERE k = :a; ",
        "UPDATE t SET m = 1 - m WHERE n > :x AND k < :a; ",
        "UPDATE u SET n = n + 1 WHERE s = :s; ",
        "UPDATE u SET n = n + :x WHERE s = 'a'; ",
        "DELETE FROM t WHERE k = :a; ",
        "DELETE FROM v WHERE n = :b; ",
        "INSERT INTO t VALUES (:a * 100 + :b, :x, 0); ",
        "SELECT n INTO :c FROM u WHERE s = :s || 'x'; IF :found THEN DELETE FROM u WHERE s = :s || 'x'; ELSE INSERT INTO u VALUES (:s || 'x', :c); END IF; ",
        "SELECT n INTO :b FROM t WHERE k = :a; IF NOT :found THEN INSERT INTO t VALUES (:a, :x, 0); END IF; ",
        "SELECT n INTO :b FROM v WHERE s = :s AND k = :a; IF NOT :found THEN INSERT INTO v VALUES (:s, :a, :x); END IF; ",
        "IF :b > 900 THEN ROLLBACK 'much'; END IF; ",
        "PRINT :found; ",
    ],
}

WORDS = ("a", "b", "c", "dd")


READS = {name: [text for text in texts if not re.search("INSERT|UPDATE|DELETE", text)] for name, texts in TEXTS.items()}


def expanded(random, text, texts):
    """A text with one of its texts for each name."""
    return re.sub(r"<([a-z]+)>", lambda name: expanded(random, random.choice(texts[name[1]]), texts), text)


def procedure(random, number):
    """A procedure of this number."""
    words, texts = random.choice((("READ ONLY ", READS), ("", TEXTS), ("", TEXTS)))
    return expanded(random, PROCEDURE.format(number, words), texts)


def script(seed, calls):
    """The tables and procedures of a seed, and so many calls. Half of the keys in them or more are two or three hot ones."""
    random = Random(seed)
    count, step, first = random.choice((4, 16, 60)), random.choice((1, 3, 8, -1, -8)), random.choice((0, 5, -40))
    keys = [first + step * number for number in range(count)]
    hot, often, turns = keys[: random.choice((2, 3))], random.choice((0.5, 0.9, 0.99)), random.choice((3, 20, 100))
    key = lambda: random.choice(hot if random.random() < often else keys)
    pair = lambda: f"({key()}, {random.randint(0, 9)})"
    call = lambda: f"{key()}, {random.randint(0, 9)}, '{random.choice(WORDS)}', ROWS ({', '.join(pair() for _ in range(random.randint(0, turns)))})"
    procedures = [procedure(random, number) for number in range(random.randint(2, 6))]
    opening = [
        TABLES,
        *procedures,
        *block("t", ((number, random.randint(0, 9), 0) for number in keys)),
        *block("u", ((word, 0) for word in WORDS)),
        *block("v", ((word, number, 0) for word in WORDS[:2] for number in keys[:5])),
    ]
    return opening, (f"CALL p{random.randrange(len(procedures))}({call()});\n" for _ in range(calls))
