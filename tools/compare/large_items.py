#!/usr/bin/env python3
"""Compares `sdb bare` with the model of bare.py, over random edits of two items with some hundred pairs.

Usage: tools/compare/large_items.py [SEED [LINES]]
It prints how many pairs the largest item had, and ends with status 1 at the first answer that differs.
"""

import random
import subprocess
import sys

import bare

NAMES = [f"n{number:02}" for number in range(60)]
VALUES = "abcdef"


def attributes(source, most, value_share, replace_share):
    for number in range(source.randrange(1, most)):
        yield f"Attribute.{number}.Name", source.choice(NAMES)
        if source.random() < value_share:
            yield f"Attribute.{number}.Value", source.choice(VALUES)
        if source.random() < replace_share:
            yield f"Attribute.{number}.Replace", "true"


def line(source):
    params = [("DomainName", "books"), ("ItemName", source.choice("ij"))]
    kind = source.random()
    if kind < 0.62:
        params += [("Action", "PutAttributes"), *attributes(source, 60, 1, 0.2)]
    elif kind < 0.90:
        params += [("Action", "DeleteAttributes"), *attributes(source, 30, 0.8, 0)]
    elif kind < 0.92:
        params += [("Action", "DeleteAttributes")]
    elif kind < 0.96:
        params = [("Action", "DomainMetadata"), ("DomainName", "books")]
    else:
        params += [("Action", "GetAttributes")]
    return "&".join(f"{name}={value}" for name, value in params).encode()


def main():
    source = random.Random(int(sys.argv[1]) if len(sys.argv) > 1 else 1)
    count = int(sys.argv[2]) if len(sys.argv) > 2 else 2_000
    lines = [b"Action=CreateDomain&DomainName=books"] + [line(source) for _ in range(count)]
    lines += [b"Action=GetAttributes&DomainName=books&ItemName=" + item for item in (b"i", b"j")]
    run = subprocess.run([bare.PROGRAM, "bare"], input=b"\n".join(lines) + b"\n", stdout=subprocess.PIPE)
    got = [b"<?xml" + text for text in run.stdout.split(b"<?xml")[1:]]
    if run.returncode != 0 or len(got) != len(lines):
        sys.exit(f"status {run.returncode}, {len(got)} answers to {len(lines)} lines")
    domains = {}
    most = 0
    for number, (text, answer) in enumerate(zip(lines, got), start=1):
        wanted = bare.answer(domains, number, text)
        if answer != wanted.encode():
            sys.exit(f"line {number}: {text[:400]!r}\nwanted {wanted[:600]!r}\ngot    {answer[:600]!r}")
        most = max([most] + [len(pairs) for items in domains.values() for pairs in items.values()])
    print(f"{len(lines)} lines are answered alike; the largest item had {most} pairs")


if __name__ == "__main__":
    main()
