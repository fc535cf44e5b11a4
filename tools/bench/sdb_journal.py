"""Writes a journal of 4 MiB (`records`), or shows the times of both programs (`show PLAIN RATES`)."""
import struct
import sys

FRAME = 100


def record(number):
    value = b"%050d" % number
    name = b"\0\x05title" + struct.pack(">H", len(value)) + value
    body = b"\0\0\0\1\2\1\5books" + struct.pack(">H", 6) + b"%06d" % number + b"\0\1\0" + name
    return b"\1" + struct.pack(">IQ", len(body), number) + body


def write_records():
    journal = b"\1SDBJRNL1" + bytes(16)
    parts = [journal]
    size, number = len(journal), 0
    while size < 4 << 20:
        number += 1
        parts.append(record(number))
        size += len(parts[-1])
    for name, content in (("sdb.c0", b""), ("sdb.c1", b""), ("sdb.j0", b"".join(parts) + b"\0"), ("sdb.j1", b"")):
        with open(name, "wb") as file:
            file.write(content)
    print(f"{number} records in {size} bytes")


def show(plain, rates):
    least = min(int(line) for line in open(plain))
    taken = [int(line) for line in open(rates)]
    append, read = min(taken[::2]), min(taken[1::2])
    print(f"one append: {append} ns, the same calls in C: {least} ns, as fast as {least / append:.2f} of it")
    print(f"4 MiB of records read in {read / 1e6:.1f} ms")


if sys.argv[1] == "records":
    write_records()
else:
    show(sys.argv[2], sys.argv[3])
