"""Opens the store of the present folder and a write-ahead log of as many puts, and shows the least times of both, and the
memory that the store holds beside that of its accounts alone, by valgrind also the bytes on the heap: PROGRAM FOLDER."""
import os
import re
import shutil
import signal
import sqlite3
import subprocess
import sys
import time

TURNS = 5


def logged(folder, count):
    """A database whose puts stand in its log alone, as an unclean end leaves it."""
    path = os.path.join(folder, "log.db")
    base = sqlite3.connect(path, isolation_level=None)
    base.execute("pragma journal_mode = wal")
    base.execute("pragma synchronous = off")
    base.execute("pragma wal_autocheckpoint = 0")
    base.execute("create table pairs (domain, item, name, value, primary key (domain, item, name, value)) without rowid")
    for number in range(1, count + 1):
        base.execute("insert into pairs values ('books', ?, 'title', ?)", (f"{number:06}", f"{number:050}"))
    copy = os.path.join(folder, "copy.db")
    for end in ("", "-wal"):
        shutil.copy(path + end, copy + end)
    base.close()
    return copy


def opened_log(path, count):
    """The seconds that sqlite takes to open it and to answer what needs the whole log read."""
    for end in ("", "-wal"):
        shutil.copy(path + end, path + ".turn" + end)
    start = time.perf_counter()
    base = sqlite3.connect(path + ".turn")
    base.execute("select 1 from pairs limit 1").fetchone()
    first = time.perf_counter() - start
    found = base.execute("select count(*), sum(length(value)) from pairs").fetchone()[0]
    all_read = time.perf_counter() - start
    assert found == count
    base.close()
    return first, all_read


def memory_of(number):
    """The KiB that a process has in memory, and the most that it had."""
    sizes = {}
    for line in open(f"/proc/{number}/status"):
        word, _, rest = line.partition(":")
        if word in ("VmRSS", "VmHWM"):
            sizes[word] = int(rest.split()[0])
    return sizes["VmRSS"], sizes["VmHWM"]


def run(program, puts):
    """Nanoseconds, the number of the last record, KiB held and KiB held at most, and what the accounts weigh."""
    process = subprocess.Popen([program], stdin=subprocess.PIPE, stdout=subprocess.PIPE, text=True)
    process.stdin.write(f"{puts}\n")
    process.stdin.flush()
    taken, count = (int(word) for word in process.stdout.readline().split())
    held, most = memory_of(process.pid)
    weight = int(process.communicate("\n")[0])
    return taken, count, held, most, weight


def on_heap(program, puts):
    """The bytes that are allocated after the opening: valgrind tells them where it ends the program at once."""
    words = ["valgrind", "--leak-check=no", program]
    process = subprocess.Popen(words, stdin=subprocess.PIPE, stdout=subprocess.PIPE, stderr=subprocess.PIPE, text=True)
    process.stdin.write(f"{puts}\n")
    process.stdin.flush()
    process.stdout.readline()
    process.send_signal(signal.SIGTERM)
    told = process.communicate()[1]
    return int(re.search(r"in use at exit: ([0-9,]+) bytes", told)[1].replace(",", ""))


def main():
    program, folder = sys.argv[1:]
    stores = [run(program, 0) for _ in range(TURNS)]
    count = stores[0][1]
    path = logged(folder, count)
    logs = [opened_log(path, count) for _ in range(TURNS)]
    stores += [run(program, 0) for _ in range(TURNS)]
    logs += [opened_log(path, count) for _ in range(TURNS)]
    taken = min(store[0] for store in stores)
    first, all_read = min(log[0] for log in logs), min(log[1] for log in logs)
    print(f"{count} puts in 4 MiB of journal: the store opens in {taken / 1e6:.1f} ms; sqlite opens the log in {first * 1e3:.1f} ms,"
          f" and has read all its pairs after {all_read * 1e3:.1f} ms, {all_read * 1e9 / taken:.2f} times the store's time")
    alone = run(program, count)
    assert alone[4] == stores[0][4]
    _, _, held, most, _ = stores[-1]
    print(f"memory after the opening: {held} KiB, {most} KiB at most; the accounts alone, made by the same edits: {alone[2]} KiB, {alone[3]} KiB at most")
    if shutil.which("valgrind"):
        print(f"allocated after the opening: {on_heap(program, 0)} bytes; by the accounts alone: {on_heap(program, count)}")


main()
