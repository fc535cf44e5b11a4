"""Times SQLite over the items of tools/bench/sdb_page.txt, whose times come on standard input, and prints ratios."""

import sqlite3
import sys
import time

QUERIES = {
    "limit": "select * from d where k = '007' limit 100",
    "count": "select count(*) from d where g = 'a'",
    "order": "select name from d where k = '007' order by g desc, name limit 10",
}


def table():
    base = sqlite3.connect(":memory:")
    base.execute("create table d (name text, k text, g text, title text)")
    rows = ((f"x{n:06}", f"{n % 1000:03}", "a", f"the title of item {n:06}") for n in range(100_000))
    base.executemany("insert into d values (?, ?, ?, ?)", rows)
    base.commit()
    return base


def least(base, query):
    times = []
    for _ in range(20):
        start = time.perf_counter_ns()
        base.execute(query).fetchall()
        times.append(time.perf_counter_ns() - start)
    return min(times)


def main():
    base = table()
    for line in sys.stdin:
        name, nanoseconds = line.split()
        theirs = least(base, QUERIES[name])
        ratio = int(nanoseconds) / theirs
        print(f"{name}: {int(nanoseconds) / 1e6:.2f} ms, SQLite {theirs / 1e6:.2f} ms, ratio {ratio:.2f}")


main()
