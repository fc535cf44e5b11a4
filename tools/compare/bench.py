#!/usr/bin/env python3
"""The five lines of `sdb bench N`: the workload of workload.py, answered by the model of bare.py.

Both are written from docs/FORMATS.md, docs/PROFILE.md and docs/SELECT.md, and share nothing with the program.
Usage: tools/compare/bench.py N
"""

import collections
import hashlib
import re
import sys

import bare
import workload


def pieces(script):
    """The connection and the bytes of each piece of a script."""
    at = 0
    while at < len(script):
        end = script.index(b"\n", at)
        words = script[at:end].split(b" ")
        at = end + 1
        if words[0] == b"D":
            size = int(words[3])
            yield int(words[1]), script[at : at + size]
            at += size + 1


def response(domains, conn, number, request):
    """The response to the request that has that number on its connection."""
    form = re.fullmatch(rb"GET /\?(.*) HTTP/1\.1\r\nHost: bench\r\n\r\n", request)[1]
    body = bare.answer(domains, number, form).removesuffix("\n")
    if "<Code>" in body:
        sys.exit(f"refused: {form!r}\n{body}")
    body = body.replace("<RequestId>00000000-", f"<RequestId>{conn:08x}-").encode()
    return b"HTTP/1.1 200 OK\r\nContent-Type: text/xml\r\nContent-Length: %d\r\n\r\n%s" % (len(body), body)


def bench(size):
    """The five lines."""
    domains = {}
    numbers = collections.Counter()
    sent = hashlib.sha256()
    for conn, request in pieces(workload.workload(size).encode()):
        numbers[conn] += 1
        text = response(domains, conn, numbers[conn], request)
        sent.update(b"S %d %d\n%s\n" % (conn, len(text), text))
    count = sum(numbers.values())
    items = sum(len(items) for items in domains.values())
    pairs = sum(bare.count(items) for items in domains.values())
    return f"requests {count}\nanswers {count}\nitems {items}\npairs {pairs}\nsent {sent.hexdigest()}\n"


if __name__ == "__main__":
    sys.stdout.write(bench(int(sys.argv[1])))
