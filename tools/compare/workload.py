#!/usr/bin/env python3
"""The script that measures a server, made once more from docs/FORMATS.md: workload.py N prints it."""
import base64
import hashlib
import hmac
import sys
from urllib.parse import quote


class Draws:
    def __init__(self, seed):
        self.state = seed

    def draw(self, many):
        self.state = (self.state * 6364136223846793005 + 1442695040888963407) % 2**64
        return self.state // 2**32 % many


def request(action, **own):
    params = {
        "AWSAccessKeyId": "BENCHKEY",
        "Action": action,
        "SignatureMethod": "HmacSHA256",
        "SignatureVersion": "2",
        "Timestamp": "2010-01-01T00:00:00Z",
        "Version": "2009-04-15",
    }
    params.update({name.replace("_", "."): value for name, value in own.items()})
    query = "&".join(f"{quote(k, safe='-_.~')}={quote(params[k], safe='-_.~')}" for k in sorted(params))
    text = f"GET\nbench\n/\n{query}"
    digest = hmac.new(b"BENCHSECRET", text.encode(), hashlib.sha256).digest()
    signature = quote(base64.b64encode(digest).decode(), safe="-_.~")
    return f"GET /?{query}&Signature={signature} HTTP/1.1\r\nHost: bench\r\n\r\n"


def piece(conn, bytes):
    return f"D {conn} 1262304000 {len(bytes)}\n{bytes}\n"


def turn(draws):
    conn = 1 + draws.draw(4)
    domain = f"bench{draws.draw(4)}"
    item = f"i{draws.draw(1000):04}"
    kind = draws.draw(10)
    if kind < 6:
        own = {"Attribute_1_Name": f"a{draws.draw(5)}", "Attribute_1_Value": f"{draws.draw(100000):05}"}
        if draws.draw(2) == 1:
            own["Attribute_1_Replace"] = "true"
        return piece(conn, request("PutAttributes", DomainName=domain, ItemName=item, **own))
    if kind == 6:
        return piece(conn, request("DeleteAttributes", DomainName=domain, ItemName=item))
    if kind == 7:
        return piece(conn, request("GetAttributes", DomainName=domain, ItemName=item))
    attribute = draws.draw(5)
    value = draws.draw(100000)
    text = f"select * from {domain} where a{attribute} >= '{value:05}' limit 20"
    return piece(conn, request("Select", SelectExpression=text))


def workload(size):
    draws = Draws(size)
    out = [f"O {conn}\n" for conn in range(1, 5)]
    out += [piece(1, request("CreateDomain", DomainName=f"bench{domain}")) for domain in range(4)]
    out.append("C\n")
    for number in range(1, 100 * size + 1):
        out.append(turn(draws))
        if number % 8 == 0:
            out.append("C\nW\n")
    out.append("C\n")
    return "".join(out)


if __name__ == "__main__":
    sys.stdout.buffer.write(workload(int(sys.argv[1])).encode())
