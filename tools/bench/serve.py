#!/usr/bin/env python3
"""Times `sdb serve` over the loopback, in one run with what it is compared with.

Signed GetAttributes a second on one keep-alive connection beside a bare echo of as many bytes, and over 32 connections;
durable puts a second beside sqlite's (WAL, synchronous=FULL, one insert a transaction) on the same disk. Of the first it
shows the processor's time of a request too, in the server and in the echo, which tells more where the machine is busy. It
needs a C compiler. Usage: tools/bench/serve.py [PROGRAM], with crates/sdb/out/sdb where no program is named.
"""

import base64
import hashlib
import hmac
import pathlib
import socket
import sqlite3
import subprocess
import sys
import tempfile
import time
from urllib.parse import quote

TOP = pathlib.Path(__file__).resolve().parents[2]
GETS, PUTS, TURNS = 20_000, 1_000, 5


def request(port, **parameters):
    host = f"localhost:{port}"
    moment = time.strftime("%Y-%m-%dT%H:%M:%SZ", time.gmtime())
    parameters |= {
        "AWSAccessKeyId": "AK1", "SignatureMethod": "HmacSHA256", "SignatureVersion": "2", "Timestamp": moment, "Version": "2009-04-15",
    }
    query = "&".join(f"{quote(name, safe='-_.~')}={quote(parameters[name], safe='-_.~')}" for name in sorted(parameters))
    text = f"POST\n{host}\n/\n{query}".encode()
    signature = base64.b64encode(hmac.new(b"SECRET1", text, hashlib.sha256).digest()).decode()
    form = f"{query}&Signature={quote(signature, safe='')}"
    return f"POST / HTTP/1.1\r\nHost: {host}\r\nContent-Length: {len(form)}\r\n\r\n{form}".encode()


def answer(port, bytes_sent):
    with socket.create_connection(("127.0.0.1", port)) as connection:
        connection.sendall(bytes_sent)
        got = b""
        while b"\r\n\r\n" not in got:
            got += connection.recv(65536)
        head, _, body = got.partition(b"\r\n\r\n")
        length = int(head.lower().split(b"content-length: ")[1].split(b"\r\n")[0])
        while len(body) < length:
            body += connection.recv(65536)
        if not head.startswith(b"HTTP/1.1 200"):
            sys.exit(f"refused: {body.decode()}")
        return len(head) + 4 + length


def free_port():
    with socket.socket() as unused:
        unused.bind(("127.0.0.1", 0))
        return unused.getsockname()[1]


def asked(client, port, connections, questions, file, length):
    """Nanoseconds a question."""
    words = [client, "ask", str(port), str(connections), str(questions), str(file), str(length)]
    return float(subprocess.run(words, check=True, capture_output=True, text=True).stdout)


def on_processor(process):
    """The nanoseconds that a process was on a processor."""
    with open(f"/proc/{process.pid}/schedstat") as told:
        return int(told.read().split()[0])


def gets(client, echo, echo_port, server, port, get, length):
    """What a question takes of the echo, of the server, and of the server over 32 connections; and on the processor."""
    taken, busy = [], []
    for process, at, connections in ((echo, echo_port, 1), (server, port, 1), (server, port, 32)):
        before = on_processor(process)
        taken.append(asked(client, at, connections, GETS, get, length))
        busy.append((on_processor(process) - before) / GETS)
    return taken, busy


def show_gets(turns):
    bare, one, many = (min(turn[0][place] for turn in turns) for place in range(3))
    print(f"a second: echo {1e9 / bare:.0f}, GetAttributes {1e9 / one:.0f} ({bare / one:.2f} of it), over 32 connections {1e9 / many:.0f} ({one / many:.2f} of one's)")
    bare, one, many = (min(turn[1][place] for turn in turns) / 1000 for place in range(3))
    print(f"processor's time of one: echo {bare:.1f} us, GetAttributes {one:.1f} us, over 32 connections {many:.1f} us")


def inserts(path):
    """The nanoseconds of a durable insert by sqlite."""
    base = sqlite3.connect(path, isolation_level=None)
    base.execute("pragma journal_mode=wal")
    base.execute("pragma synchronous=full")
    base.execute("create table pairs (item text, name text, value text)")
    start = time.monotonic()
    for _ in range(PUTS):
        base.execute("insert into pairs values ('i1', 'title', 'Emma')")
    taken = (time.monotonic() - start) / PUTS
    base.close()
    return taken * 1e9


def main():
    program = sys.argv[1] if len(sys.argv) > 1 else str(TOP / "crates" / "sdb" / "out" / "sdb")
    with tempfile.TemporaryDirectory(dir=".") as name:
        folder = pathlib.Path(name).resolve()
        client = str(folder / "client")
        subprocess.run(["cc", "-O2", "-o", client, str(TOP / "tools" / "bench" / "serve.c")], check=True)
        (folder / "sdb.keys").write_text("1 AK1 SECRET1\n")
        port, echo_port = free_port(), free_port()
        server = subprocess.Popen([program, "serve", str(port), "4000000000"], cwd=folder, stderr=subprocess.PIPE, text=True)
        print(server.stderr.readline().rstrip(), flush=True)
        echo = None
        try:
            answer(port, request(port, Action="CreateDomain", DomainName="books"))
            put = request(port, Action="PutAttributes", DomainName="books", ItemName="i1", **{"Attribute.1.Name": "title", "Attribute.1.Value": "Emma"})
            put_length = answer(port, put)
            get = request(port, Action="GetAttributes", DomainName="books", ItemName="i1")
            get_length = answer(port, get)
            (folder / "get").write_bytes(get)
            (folder / "put").write_bytes(put)
            echo = subprocess.Popen([client, "echo", str(echo_port), str(len(get)), str(get_length)])
            time.sleep(0.5)
            show_gets([gets(client, echo, echo_port, server, port, folder / "get", get_length) for _ in range(TURNS)])
            turns = [(asked(client, port, 1, PUTS, folder / "put", put_length), inserts(folder / f"sqlite{turn}")) for turn in range(TURNS)]
            puts, rows = min(turn[0] for turn in turns), min(turn[1] for turn in turns)
            print(f"durable puts: {1e9 / puts:.0f} a second; sqlite: {1e9 / rows:.0f} ({rows / puts:.2f} of it); ratios of the turns: " + ", ".join(f"{turn[1] / turn[0]:.2f}" for turn in turns), flush=True)
        finally:
            server.kill()
            server.wait()
            if echo is not None:
                echo.kill()
                echo.wait()


main()
