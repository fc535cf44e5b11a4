#!/usr/bin/env python3
"""Requests a second of the workload of docs/FORMATS.md with n = 100 (10,004 requests), in one run.

`sdb replay` over real files in the present folder's file system and over files in a file system in memory, and the program
of replay.sh over a disk in memory, each from the start of the process to its end; beside boto3's against moto, as a server
on the loopback and as its mock in the process. moto has no Select and no DeleteAttributes, so boto3 is timed over the first
requests of the other kinds. Usage: replay.py MEMORY PROGRAM, with `-` where one isn't there.
"""

import os
import pathlib
import socket
import subprocess
import sys
import tempfile
import time
from urllib.parse import parse_qsl

sys.path.insert(0, str(pathlib.Path(__file__).resolve().parents[1] / "compare"))
from workload import workload  # noqa: E402

SIZE, TURNS, MOST_CALLS = 100, 3, 1_000
KEYS = "1 BENCHKEY BENCHSECRET\n"


def free_port():
    with socket.socket() as unused:
        unused.bind(("127.0.0.1", 0))
        return unused.getsockname()[1]


def replayed(words, script, under):
    """The least seconds of a replay in a new folder each, and what it answered."""
    least, answers = None, None
    for _ in range(TURNS):
        with tempfile.TemporaryDirectory(dir=under) as name:
            folder = pathlib.Path(name)
            (folder / "sdb.keys").write_text(KEYS)
            with open(script, "rb") as given, open(folder / "answers", "wb") as taken:
                start = time.monotonic()
                subprocess.run(words, stdin=given, stdout=taken, cwd=folder, check=True)
                took = time.monotonic() - start
            answers = (folder / "answers").read_bytes()
        least = took if least is None else min(least, took)
    return least, answers


def calls(script):
    """What boto3 is asked for the requests of those kinds that moto has."""
    found, skipped = [], 0
    for line in script.decode().split("\n"):
        if not line.startswith("GET /?"):
            continue
        params = dict(parse_qsl(line[len("GET /?"):line.index(" HTTP/1.1")]))
        own = {name: params[name] for name in ("DomainName", "ItemName") if name in params}
        if params["Action"] == "CreateDomain":
            found.append(("create_domain", own))
        elif params["Action"] == "GetAttributes":
            found.append(("get_attributes", own))
        elif params["Action"] == "PutAttributes":
            attribute = {"Name": params["Attribute.1.Name"], "Value": params["Attribute.1.Value"]}
            if "Attribute.1.Replace" in params:
                attribute["Replace"] = True
            found.append(("put_attributes", own | {"Attributes": [attribute]}))
        else:
            skipped += 1
    return found[:MOST_CALLS], skipped


def seconds_a_call(client, asked):
    start = time.monotonic()
    for name, own in asked:
        getattr(client, name)(**own)
    return (time.monotonic() - start) / len(asked)


def client_of(**settings):
    import boto3

    return boto3.client("sdb", region_name="us-west-1", aws_access_key_id="BENCHKEY", aws_secret_access_key="BENCHSECRET", **settings)


def over_server(asked):
    port = free_port()
    server = subprocess.Popen([sys.executable, "-m", "moto.server", "-p", str(port)], stdout=subprocess.DEVNULL, stderr=subprocess.DEVNULL)
    try:
        for _ in range(300):
            time.sleep(0.1)
            with socket.socket() as trial:
                if trial.connect_ex(("127.0.0.1", port)) == 0:
                    break
        return seconds_a_call(client_of(endpoint_url=f"http://127.0.0.1:{port}"), asked)
    finally:
        server.kill()
        server.wait()


def in_process(asked):
    from moto import mock_aws

    with mock_aws():
        return seconds_a_call(client_of(), asked)


def main():
    memory, program = sys.argv[1:]
    content = workload(SIZE).encode()
    many = content.count(b"GET /?")
    rates = []
    with tempfile.TemporaryDirectory(dir=".") as name:
        script = pathlib.Path(name).resolve() / "script"
        script.write_bytes(content)
        rows = []
        if memory != "-":
            rows.append(("over a disk in memory", [memory], name))
        if program != "-":
            rows.append(("sdb replay over real files", [program, "replay"], name))
            rows.append(("sdb replay over files in /dev/shm", [program, "replay"], "/dev/shm"))
        same = set()
        for what, words, under in rows:
            took, answers = replayed(words, script, under)
            same.add(answers)
            rates.append((what, many / took))
            print(f"{what}: {many} requests in {took:.3f} s, {many / took:.0f} a second", flush=True)
        if len(same) > 1:
            sys.exit("the answers differ")
    try:
        import boto3
        import moto
    except ImportError as missing:
        sys.exit(f"{missing}: boto3 and moto are needed for the comparison")
    asked, skipped = calls(content)
    print(f"boto3 {boto3.__version__} and moto {moto.__version__}: {len(asked)} calls; {skipped} of {many} requests are of kinds that moto hasn't")
    for what, one in (("a server on the loopback", over_server), ("in the process", in_process)):
        rate = 1 / min(one(asked) for _ in range(TURNS))
        print(f"boto3 with moto, {what}: {rate:.0f} a second; " + "; ".join(f"{name} {ours / rate:.0f} times" for name, ours in rates), flush=True)


main()
