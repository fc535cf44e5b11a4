#!/usr/bin/env python3
"""Holds `sdb serve` to what docs/PROFILE.md says of it, over real sockets.

It starts the server on a free port in a new folder, sends signed requests of all ten actions, kills it, starts it
again and looks for the data; and it looks at the words that start no server, at its statuses and at its last turn. The
signer is written from docs/PROFILE.md ("How a request is signed") and shares nothing with the program.
Usage: tools/compare/serve.py [PROGRAM], with tools/sdb where no program is named.
It prints a line for each fault, and ends with status 1 where there is one.
"""

import base64
import contextlib
import hmac
import http.client
import os
import pathlib
import shutil
import signal
import socket
import subprocess
import sys
import tempfile
import threading
import time
import xml.etree.ElementTree as ElementTree
from urllib.parse import quote, urlencode

TOP = pathlib.Path(__file__).resolve().parents[2]
NAMESPACE = "{http://sdb.amazonaws.com/doc/2009-04-15/}"
KEY, SECRET = "AKFIRST", "wJalrXUtnFEMI/K7MDENG+first"
OTHER_KEY, OTHER_SECRET = "AKSECOND", "wJalrXUtnFEMI/K7MDENG+second"
TURNS = "1000000"
SECONDS = 60
ACTIONS = (
    "CreateDomain DeleteDomain ListDomains DomainMetadata PutAttributes BatchPutAttributes "
    "GetAttributes DeleteAttributes BatchDeleteAttributes Select"
).split()

faults = 0
answered = set()


def wrong(text):
    global faults
    faults += 1
    print(f"tools/serve-check: WRONG: {text}", flush=True)


def check(is_right, text):
    if not is_right:
        wrong(text)


class Server:
    """A server in a folder, from its start until it is killed."""

    def __init__(self, program, folder, port, turns=TURNS):
        self.port = port
        self.said = []
        self.is_serving = threading.Event()
        self.process = subprocess.Popen(
            [program, "serve", str(port), turns],
            cwd=folder,
            stdin=subprocess.DEVNULL,
            stdout=subprocess.PIPE,
            stderr=subprocess.PIPE,
        )
        self.reader = threading.Thread(target=self.read_lines, daemon=True)
        self.reader.start()
        self.is_serving.wait(SECONDS)

    def read_lines(self):
        wanted = f"sdb: serving on 127.0.0.1:{self.port}"
        for line in self.process.stderr:
            text = line.decode("utf-8", "replace").rstrip("\n")
            self.said.append(text)
            if text == wanted:
                self.is_serving.set()
        self.is_serving.set()

    def is_up(self):
        return self.said == [f"sdb: serving on 127.0.0.1:{self.port}"]

    def stop(self, number):
        """Sends the signal, and gives what the server wrote to standard output."""
        if self.process.poll() is None:
            self.process.send_signal(number)
        written = self.process.stdout.read()
        self.process.wait(SECONDS)
        self.reader.join(SECONDS)
        return written


def escaped(text):
    return quote(text, safe="-_.~")


def signed(verb, host, params, key=KEY, secret=SECRET):
    """The form of a signed request, as docs/PROFILE.md has it."""
    params = {
        "AWSAccessKeyId": key,
        "SignatureVersion": "2",
        "SignatureMethod": "HmacSHA256",
        "Timestamp": time.strftime("%Y-%m-%dT%H:%M:%SZ", time.gmtime()),
        "Version": "2009-04-15",
        **params,
    }
    names = sorted(params, key=lambda name: name.encode())
    query = "&".join(escaped(name) + "=" + escaped(params[name]) for name in names)
    text = "\n".join([verb, host.lower(), "/", query])
    digest = hmac.new(secret.encode(), text.encode(), "sha256").digest()
    return urlencode({**params, "Signature": base64.b64encode(digest).decode()})


def exchange(connection, port, params, verb="POST", **key):
    """The status and the root element of the answer to a signed request."""
    form = signed(verb, f"127.0.0.1:{port}", params, **key)
    if verb == "GET":
        connection.request("GET", "/?" + form)
    else:
        connection.request("POST", "/", form, {"Content-Type": "application/x-www-form-urlencoded"})
    response = connection.getresponse()
    return response.status, ElementTree.fromstring(response.read())


def done(connection, port, action, verb="POST", **params):
    """The result of a request that is to be done, an element that may be empty."""
    status, root = exchange(connection, port, {"Action": action, **params}, verb)
    if status != 200 or root.tag != f"{NAMESPACE}{action}Response":
        wrong(f"{action} is answered {status} {ElementTree.tostring(root).decode()}")
        return ElementTree.Element("nothing")
    identity = root.findtext(f"{NAMESPACE}ResponseMetadata/{NAMESPACE}RequestId")
    usage = root.findtext(f"{NAMESPACE}ResponseMetadata/{NAMESPACE}BoxUsage")
    check(identity and usage, f"{action} is answered without its metadata")
    answered.add(action)
    result = root.find(f"{NAMESPACE}{action}Result")
    return ElementTree.Element("nothing") if result is None else result


def refused(connection, port, wanted, params, **key):
    """Holds the answer to a refusal: its status and its code."""
    status, root = exchange(connection, port, params, **key)
    code = root.findtext("Errors/Error/Code")
    check((status, code) == wanted, f"{params['Action']} is answered {status} {code}, and not {wanted[0]} {wanted[1]}")


def texts(element, name):
    return [found.text or "" for found in element.iter(NAMESPACE + name)]


def pairs(element):
    return [
        (found.findtext(NAMESPACE + "Name"), found.findtext(NAMESPACE + "Value"))
        for found in element.iter(NAMESPACE + "Attribute")
    ]


def items(element):
    return [(found.findtext(NAMESPACE + "Name"), pairs(found)) for found in element.iter(NAMESPACE + "Item")]


EMMA = [("author", "Austen"), ("title", "Emma"), ("year", "1815")]
OMOO = [("author", "Melville"), ("title", "Omoo"), ("year", "1847")]
LEFT = [("author", "Dickens & Söhne"), ("title", "<Hard> times + \"more\"")]


def write_all(connection, port):
    """Requests of all ten actions, over domains that begin empty."""
    check(texts(done(connection, port, "ListDomains"), "DomainName") == [], "a new account has domains")
    for domain in ("books", "shelf", "waste"):
        done(connection, port, "CreateDomain", DomainName=domain)
    listed = done(connection, port, "ListDomains", "GET", MaxNumberOfDomains="2")
    check(texts(listed, "DomainName") == ["books", "shelf"], "ListDomains doesn't give the first two domains")
    token = "".join(texts(listed, "NextToken"))
    listed = done(connection, port, "ListDomains", NextToken=token)
    check(texts(listed, "DomainName") == ["waste"], "ListDomains doesn't go on from its token")
    done(
        connection, port, "PutAttributes",
        **{
            "DomainName": "books", "ItemName": "b1",
            "Attribute.1.Name": "title", "Attribute.1.Value": LEFT[1][1],
            "Attribute.10.Name": "author", "Attribute.10.Value": LEFT[0][1],
            "Attribute.2.Name": "lost", "Attribute.2.Value": "yes",
        },
    )
    batch = {"DomainName": "books"}
    for number, (name, attributes) in enumerate([("b2", EMMA), ("b3", OMOO), ("b4", OMOO)]):
        batch[f"Item.{number}.ItemName"] = name
        for place, (attribute, value) in enumerate(attributes):
            batch[f"Item.{number}.Attribute.{place}.Name"] = attribute
            batch[f"Item.{number}.Attribute.{place}.Value"] = value
    done(connection, port, "BatchPutAttributes", **batch)
    done(connection, port, "DeleteAttributes", **{"DomainName": "books", "ItemName": "b1", "Attribute.0.Name": "lost"})
    done(connection, port, "BatchDeleteAttributes", **{"DomainName": "books", "Item.0.ItemName": "b4"})
    done(connection, port, "DeleteDomain", DomainName="waste")


def read_all(connection, port):
    """What was written is there, by each of the actions that read."""
    listed = done(connection, port, "ListDomains")
    check(texts(listed, "DomainName") == ["books", "shelf"], "the domains aren't those that were left")
    found = pairs(done(connection, port, "GetAttributes", "GET", DomainName="books", ItemName="b1"))
    check(found == LEFT, f"GetAttributes gives {found}")
    found = pairs(done(connection, port, "GetAttributes", **{"DomainName": "books", "ItemName": "b4"}))
    check(found == [], f"GetAttributes of a deleted item gives {found}")
    metadata = done(connection, port, "DomainMetadata", DomainName="books")
    names = ("ItemCount", "AttributeNameCount", "AttributeValueCount")
    counts = [metadata.findtext(NAMESPACE + name) for name in names]
    check(counts == ["3", "3", "8"], f"DomainMetadata gives {counts}")
    expression = "select * from books where year >= '1815' intersection title is not null order by title desc"
    found = items(done(connection, port, "Select", SelectExpression=expression))
    check(found == [("b3", OMOO), ("b2", EMMA)], f"Select gives {found}")
    found = items(done(connection, port, "Select", SelectExpression="select count(*) from books"))
    check(found == [("Domain", [("Count", "3")])], f"Select of a count gives {found}")
    found = items(done(connection, port, "Select", SelectExpression="select itemName() from books limit 1"))
    check([name for name, _ in found] == ["b1"], f"Select of names gives {found}")


def refuse_some(connection, port):
    """What isn't signed as it should be is refused, and no account sees another's domains."""
    listing = {"Action": "ListDomains"}
    refused(connection, port, (403, "SignatureDoesNotMatch"), listing, secret=OTHER_SECRET)
    refused(connection, port, (403, "AuthFailure"), listing, key="AKNOBODY")
    refused(connection, port, (400, "RequestExpired"), {**listing, "Timestamp": "2010-01-01T00:00:00Z"})
    refused(connection, port, (400, "NoSuchDomain"), {"Action": "GetAttributes", "DomainName": "none", "ItemName": "x"})
    refused(
        connection, port, (409, "ConditionalCheckFailed"),
        {
            "Action": "PutAttributes", "DomainName": "books", "ItemName": "b2",
            "Attribute.0.Name": "year", "Attribute.0.Value": "1816",
            "Expected.0.Name": "title", "Expected.0.Value": "Persuasion",
        },
    )
    status, root = exchange(connection, port, listing, key=OTHER_KEY, secret=OTHER_SECRET)
    check(status == 200 and texts(root, "DomainName") == [], "another account sees the domains of the first")


def ask_side_by_side(port):
    """Connections that are open at once are each answered, in whatever order they ask."""
    connections = [http.client.HTTPConnection("127.0.0.1", port, timeout=SECONDS) for _ in range(40)]
    for connection in connections:
        connection.connect()
    for connection in reversed(connections):
        found = pairs(done(connection, port, "GetAttributes", DomainName="books", ItemName="b2"))
        check(found == EMMA, f"one of many connections is answered {found}")
    for connection in connections:
        connection.close()


def try_boto3(port):
    """The same by boto3, where it is installed."""
    try:
        import boto3
        from botocore.exceptions import BotoCoreError, ClientError
    except ImportError:
        print("tools/serve-check: boto3 is missing, so it isn't tried")
        return
    try:
        ask_by_boto3(port)
    except (BotoCoreError, ClientError) as error:
        wrong(f"boto3: {error}")
    print(f"tools/serve-check: boto3 {boto3.__version__} was tried")


def ask_by_boto3(port):
    import boto3
    from botocore.config import Config
    from botocore.exceptions import ClientError

    client = boto3.client(
        "sdb",
        endpoint_url=f"http://127.0.0.1:{port}",
        region_name="us-east-1",
        aws_access_key_id=KEY,
        aws_secret_access_key=SECRET,
        config=Config(proxies={}, retries={"max_attempts": 0}),
    )
    client.create_domain(DomainName="boto")
    client.put_attributes(
        DomainName="boto",
        ItemName="i1",
        Attributes=[{"Name": "color", "Value": "red", "Replace": True}, {"Name": "a b", "Value": "x*~é"}],
        Expected={"Name": "color", "Exists": False},
    )
    client.batch_put_attributes(
        DomainName="boto",
        Items=[{"Name": f"n{n}", "Attributes": [{"Name": "color", "Value": str(n)}]} for n in range(10, 22)],
    )
    got = client.get_attributes(DomainName="boto", ItemName="i1", ConsistentRead=True)
    wanted = [{"Name": "a b", "Value": "x*~é"}, {"Name": "color", "Value": "red"}]
    check(got.get("Attributes") == wanted, f"boto3 gets {got.get('Attributes')}")
    check(client.domain_metadata(DomainName="boto")["ItemCount"] == 13, "boto3 counts other items")
    check("boto" in client.list_domains()["DomainNames"], "boto3 doesn't list the domain")
    try:
        client.get_attributes(DomainName="nowhere", ItemName="i1")
        wrong("boto3 gets from no domain")
    except ClientError as error:
        check(error.response["Error"]["Code"] == "NoSuchDomain", f"boto3 is refused {error}")
    pages = client.get_paginator("select").paginate(SelectExpression="select * from boto where color < '3' limit 5")
    names = [[item["Name"] for item in page.get("Items", [])] for page in pages]
    check(sum(names, []) == [f"n{n}" for n in range(10, 22)], f"boto3 selects {names}")
    client.delete_attributes(DomainName="boto", ItemName="i1")
    client.batch_delete_attributes(DomainName="boto", Items=[{"Name": "n10"}])
    client.delete_domain(DomainName="boto")


def try_command(port, folder):
    """One request by the AWS CLI, where it is installed."""
    command = shutil.which("aws")
    if command is None:
        print("tools/serve-check: the command aws is missing, so it isn't tried")
        return
    # Version 1 of the command has SimpleDB behind this setting.
    (folder / "aws.config").write_text("[preview]\nsdb = true\n")
    environment = {
        **os.environ, "AWS_ACCESS_KEY_ID": KEY, "AWS_SECRET_ACCESS_KEY": SECRET, "AWS_DEFAULT_REGION": "us-east-1",
        "AWS_ENDPOINT_URL_SIMPLEDB": f"http://127.0.0.1:{port}", "NO_PROXY": "127.0.0.1", "AWS_PAGER": "",
        "AWS_CONFIG_FILE": str(folder / "aws.config"), "AWS_SHARED_CREDENTIALS_FILE": "/dev/null",
    }
    words = [command, "sdb", "select", "--select-expression", "select title from books where itemName() = 'b2'",
             "--output", "text"]
    ran = subprocess.run(words, cwd=folder, env=environment, capture_output=True, text=True, timeout=SECONDS)
    check(
        ran.returncode == 0 and ran.stdout.split() == ["ITEMS", "b2", "ATTRIBUTES", "title", "Emma"],
        f"aws sdb select ends with {ran.returncode} and says {ran.stdout + ran.stderr}",
    )
    print("tools/serve-check: the command aws was tried")


USAGE = "sdb: usage: sdb bare | replay | serve PORT TURNS | check | bench N"


def ends(program, folder, words, status, line):
    """Holds a run that ends by itself to its status and to its last line on standard error."""
    ran = subprocess.run([program, *words], cwd=folder, stdin=subprocess.DEVNULL, capture_output=True, timeout=SECONDS)
    said = ran.stderr.decode("utf-8", "replace").splitlines()
    check(
        (ran.returncode, said[-1:], ran.stdout) == (status, [line], b""),
        f"{words} ends with status {ran.returncode} and says {said}, and not with {status} and {line}",
    )


def hold_words(program, folder):
    """Words and files with which no server starts."""
    (folder / "sdb.keys").unlink()
    port = str(free_port())
    for words in (["serve"], ["serve", port], ["serve", "0", "5"], ["serve", "0" + port, "5"], ["serve", port, "0"],
                  ["serve", "65536", "5"], ["serve", port, "4294967296"], ["serve", port, "5", "6"]):
        ends(program, folder, words, 1, USAGE)
    ends(program, folder, ["serve", port, TURNS], 2, "sdb: reading failed")
    (folder / "sdb.keys").write_text(f"1 {KEY} {SECRET}\n1  {OTHER_KEY} {OTHER_SECRET}\n")
    ends(program, folder, ["serve", port, TURNS], 6, "sdb: bad keys at line 2")
    (folder / "sdb.keys").write_text(f"1 {KEY} {SECRET}\n")
    with socket.socket() as taken:
        taken.bind(("127.0.0.1", int(port)))
        taken.listen()
        ends(program, folder, ["serve", port, TURNS], 9, "sdb: network failed")


def hold_turns(program, folder):
    """A server ends after exactly so many events: a connection opens, a request comes in one piece, and it ends."""
    port = free_port()
    server = Server(program, folder, port, "3")
    try:
        if not server.is_up():
            wrong(f"the server says {server.said}")
            return
        form = signed("GET", f"127.0.0.1:{port}", {"Action": "ListDomains"})
        with socket.create_connection(("127.0.0.1", port), timeout=SECONDS) as client:
            client.sendall(f"GET /?{form} HTTP/1.1\r\nHost: 127.0.0.1:{port}\r\n\r\n".encode())
            answer = client.recv(65536)
            check(answer.startswith(b"HTTP/1.1 200 "), f"a request of three turns is answered {answer}")
            check(server.process.poll() is None, "the server ends before its last turn")
        server.process.wait(SECONDS)
        check(server.process.returncode == 0, f"a server of three turns ends with status {server.process.returncode}")
    finally:
        server.stop(signal.SIGKILL)
    check(server.is_up(), f"the server of three turns says {server.said}")


def free_port():
    with socket.socket() as probe:
        probe.bind(("127.0.0.1", 0))
        return probe.getsockname()[1]


def hold(program, folder):
    port = free_port()
    for is_second in (False, True):
        server = Server(program, folder, port)
        try:
            if not server.is_up():
                wrong(f"the server says {server.said}")
                return
            with contextlib.closing(http.client.HTTPConnection("127.0.0.1", port, timeout=SECONDS)) as connection:
                if not is_second:
                    write_all(connection, port)
                read_all(connection, port)
                refuse_some(connection, port)
            ask_side_by_side(port)
            if is_second:
                try_boto3(port)
                try_command(port, folder)
                ends(program, folder, ["serve", str(free_port()), TURNS], 5, "sdb: disk failed")
        finally:
            written = server.stop(signal.SIGKILL)
        check(server.is_up(), f"the server says {server.said}")
        check(written == b"", f"the server writes {written}")
    missing = [action for action in ACTIONS if action not in answered]
    check(not missing, f"never done: {missing}")


def hold_life(program, folder):
    """The store whose life examples/life tells."""
    life = TOP / "examples" / "life"
    run = subprocess.run([life / "life.sh", program, str(free_port())], cwd=folder, stdout=subprocess.PIPE, timeout=SECONDS)
    check(run.stdout == (life / "life.out").read_bytes(), f"the life of a store comes to {run.stdout.decode()}")


def main():
    program = sys.argv[1] if len(sys.argv) > 1 else str(TOP / "tools" / "sdb")
    for part in (hold_words, hold_turns, hold, hold_life):
        with tempfile.TemporaryDirectory(prefix="sdb-serve-") as name:
            folder = pathlib.Path(name)
            (folder / "sdb.keys").write_text(f"# two accounts\n1 {KEY} {SECRET}\n2 {OTHER_KEY} {OTHER_SECRET}\n")
            try:
                part(program, folder)
            except (OSError, subprocess.SubprocessError, http.client.HTTPException, ElementTree.ParseError) as error:
                wrong(f"{type(error).__name__}: {error}")
    print(f"tools/serve-check: {len(answered)} of {len(ACTIONS)} actions were done, {faults} faults")
    sys.exit(1 if faults else 0)


if __name__ == "__main__":
    main()
