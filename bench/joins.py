#!/usr/bin/env python3
"""Times `rpt run` over tables that it makes: python3 bench/joins.py PROGRAM [ROWS]

Each query is run three times for each of some settings: exact filters by one, two and four workers, Bloom filters by four, and none.
The least wall time and the greatest resident memory are printed, how long the output is, and how many rows of all relations the filters
keep. Where the machine has the command `sqlite3`, it answers the same queries from the same files, once each: it imports the
files into a database in memory, and writes the answer as CSV.
ROWS, 1,000,000 where it isn't given, is how many rows the greatest table has. The numbers are drawn from one seed, so that two
builds of the program answer the same queries.

star      a table of ROWS rows and three of a thousandth of that, each joined to it by a key of its own
chain     three tables of ROWS / 2 rows in a row, joined by keys that are drawn from ROWS / 2 numbers
filtered  the same chain, where a condition leaves a hundredth of the last table's rows
skewed    a chain of three whose neighbours share one key in 20,000 rows each, and whose ends have no key in common: the joins
          of neighbours have 400,000,000 tuples, and the answer has none; it isn't run without filters
"""
import os
import random
import resource
import shutil
import subprocess
import sys
import tempfile
import time


def table(folder, name, columns, rows):
    with open(f"{folder}/{name}.csv", "w", encoding="ascii") as file:
        file.write(",".join(columns) + "\n")
        file.writelines(",".join(map(str, row)) + "\n" for row in rows)


def star(folder, rows, draw):
    small = max(1, rows // 1000)
    table(folder, "f", ["a", "b", "c", "n"], ((draw(small), draw(small), draw(small), n) for n in range(rows)))
    for name in "abc":
        table(folder, f"d{name}", [name, "t"], ((k, f"{name}{k}") for k in range(small)))
    return (
        "CREATE TABLE f (a INT, b INT, c INT, n INT); CREATE TABLE da (a INT, t TEXT); CREATE TABLE db (b INT, t TEXT);"
        " CREATE TABLE dc (c INT, t TEXT);"
        " SELECT f.n, da.t, db.t, dc.t FROM f, da, db, dc WHERE f.a = da.a AND f.b = db.b AND f.c = dc.c"
    )


CHAIN = (
    "CREATE TABLE r (x INT, n INT); CREATE TABLE s (x INT, y INT); CREATE TABLE t (y INT, m INT);"
    " SELECT r.n, t.m FROM r, s, t WHERE r.x = s.x AND s.y = t.y"
)


def chain(folder, rows, draw):
    half = max(1, rows // 2)
    table(folder, "r", ["x", "n"], ((draw(half), n) for n in range(half)))
    table(folder, "s", ["x", "y"], ((draw(half), draw(half)) for _ in range(half)))
    table(folder, "t", ["y", "m"], ((draw(half), m) for m in range(half)))
    return CHAIN


def filtered(folder, rows, draw):
    return f"{chain(folder, rows, draw)} AND t.m < {max(1, rows // 200)}"


def skewed(folder, rows, draw):
    del draw
    many = min(rows, 20_000)
    table(folder, "r", ["x", "n"], ((1, n) for n in range(many)))
    table(folder, "s", ["x", "y"], [*((1, 2) for _ in range(many)), *((3, 4) for _ in range(many))])
    table(folder, "t", ["y", "m"], ((4, m) for m in range(many)))
    return CHAIN


def timed(words):
    """Returns the wall time of the program, its greatest memory in MiB, and the length of its output."""
    begun = time.monotonic()
    with subprocess.Popen(words, stdout=subprocess.PIPE) as ran:
        length = sum(map(len, iter(lambda: ran.stdout.read(1 << 20), b"")))
        _, status, used = os.wait4(ran.pid, 0)
        ran.returncode = os.waitstatus_to_exitcode(status)
    if ran.returncode:
        sys.exit(f"{' '.join(words)} ended with status {ran.returncode}")
    return time.monotonic() - begun, used.ru_maxrss // 1024, length


def sqlite(folder, script):
    """Returns the words by which sqlite3 reads the tables' files and answers the script's query."""
    *creates, query = script.split(";")
    tables = [it.split()[2] for it in creates]
    lines = [*(f"{it};" for it in creates), ".mode csv", '.separator "," "\\n"', *(f".import --skip 1 {folder}/{it}.csv {it}" for it in tables)]
    with open(f"{folder}/sqlite.txt", "w", encoding="ascii") as file:
        file.write("\n".join([*lines, ".headers on", f"{query};", ""]))
    return ["sqlite3", ":memory:", "-batch", f".read {folder}/sqlite.txt"]


SETTINGS = [("exact", 1), ("exact", 2), ("exact", 4), ("bloom", 4), ("none", 4)]


def reduced(words):
    """Returns how many rows of all relations the filters keep, by the report of the program."""
    report = subprocess.run(words, stdout=subprocess.PIPE, check=True).stdout
    return sum(int(line.split()[-1]) for line in report.splitlines() if line.startswith(b"relation "))


def main():
    program, rows = os.path.abspath(sys.argv[1]), int(sys.argv[2]) if len(sys.argv) > 2 else 1_000_000
    resource.setrlimit(resource.RLIMIT_CORE, (0, 0))
    for make in (star, chain, filtered, skewed):
        with tempfile.TemporaryDirectory() as folder:
            script = make(folder, rows, random.Random(1).randrange)
            with open(f"{folder}/query.sql", "w", encoding="ascii") as file:
                file.write(script)
            for kind, workers in SETTINGS[:-1] if make is skewed else SETTINGS:
                words = [f"{folder}/query.sql", folder, "--filter", kind, "--workers", str(workers)]
                runs = [timed([program, "run", *words]) for _ in range(3)]
                least, most = min(it[0] for it in runs), max(it[1] for it in runs)
                kept = reduced([program, "explain", *words])
                print(f"{make.__name__:9} {kind:6} {workers} {least:7.2f} s {most:6} MiB {runs[0][2]:12} bytes {kept:9} rows", flush=True)
            if shutil.which("sqlite3"):
                wall, memory, length = timed(sqlite(folder, script))
                print(f"{make.__name__:9} sqlite3  {wall:7.2f} s {memory:6} MiB {length:12} bytes", flush=True)


if __name__ == "__main__":
    main()
