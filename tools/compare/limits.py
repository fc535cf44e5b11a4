#!/usr/bin/env python3
"""Compares `sdb bare` with the model of bare.py where an account is filled to each of its limits.

Usage: tools/compare/limits.py
It prints how often each code came, and ends with status 1 at the first answer that differs.
"""

import bare


def line(action, domain, *params):
    pairs = [("Action", action), ("DomainName", domain), *params]
    return "&".join(f"{name}={value}" for name, value in pairs).encode()


def put(domain, item, names, value):
    params = [("ItemName", item)]
    for number, name in enumerate(names):
        params += [(f"Attribute.{number}.Name", name), (f"Attribute.{number}.Value", value)]
    return line("PutAttributes", domain, *params)


def batch(domain, names):
    params = []
    for number, name in enumerate(names):
        params += [
            (f"Item.{number}.ItemName", name),
            (f"Item.{number}.Attribute.0.Name", "last"),
            (f"Item.{number}.Attribute.0.Value", "x"),
        ]
    return line("BatchPutAttributes", domain, *params)


def names(count):
    return [f"n{number}" for number in range(count)]


def many_pairs():
    """A domain of 250,000 pairs, and what is done there."""
    yield line("CreateDomain", "pairs")
    for number in range(976):
        yield put("pairs", f"i{number}", names(256), "x")
    yield put("pairs", "rest", names(143), "x")
    yield put("pairs", "rest", ["last"], "x")
    yield put("pairs", "rest", ["more"], "x")
    yield put("pairs", "rest", ["last"], "x")
    yield batch("pairs", ["rest", "new"])
    yield line("CreateDomain", "pairs")
    yield line("DeleteAttributes", "pairs", ("ItemName", "i7"))
    yield batch("pairs", ["rest", "new"])
    yield line("DeleteDomain", "pairs")


def many_bytes():
    """Domains of the greatest weight, until the account has its own."""
    value = "v" * 1024
    for domain in ("one", "two", "three"):
        yield line("CreateDomain", domain)
        for number in range(120):
            yield put(domain, f"i{number}", names(256), value)
    yield line("CreateDomain", "four")
    yield line("DeleteAttributes", "one", ("ItemName", "i0"))
    yield put("two", "small", ["a"], "x")
    for domain in ("one", "two", "three", "four"):
        yield line("DomainMetadata", domain)
        yield line("DeleteDomain", domain)


def many_domains():
    for number in range(252):
        yield line("CreateDomain", f"domain{number}")
    yield line("CreateDomain", "domain7")
    yield line("DeleteDomain", "domain7")
    yield line("CreateDomain", "another")


def main():
    codes = bare.compare([*many_pairs(), *many_bytes(), *many_domains()])
    print("accounts at their limits are answered alike:", ", ".join(f"{code} {n}" for code, n in codes.most_common()))


if __name__ == "__main__":
    main()
