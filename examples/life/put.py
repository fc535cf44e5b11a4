#!/usr/bin/env python3
"""Puts title = Emma into the item i2 of the domain books, by a signed request to a port of 127.0.0.1.

Usage: put.py PORT. It prints the status of the answer, and tries for ten seconds where nobody listens yet.
"""

import base64
import hashlib
import hmac
import http.client
import sys
import time
from urllib.parse import quote


def signed(host):
    """The target of the request, signed by the key of sdb.keys."""
    params = {
        "AWSAccessKeyId": "AK1",
        "Action": "PutAttributes",
        "Attribute.1.Name": "title",
        "Attribute.1.Value": "Emma",
        "DomainName": "books",
        "ItemName": "i2",
        "SignatureMethod": "HmacSHA256",
        "SignatureVersion": "2",
        "Timestamp": time.strftime("%Y-%m-%dT%H:%M:%SZ", time.gmtime()),
        "Version": "2009-04-15",
    }
    query = "&".join(f"{name}={quote(params[name], safe='-_.~')}" for name in sorted(params))
    digest = hmac.new(b"SECRET1", f"GET\n{host}\n/\n{query}".encode(), hashlib.sha256).digest()
    return f"/?{query}&Signature={quote(base64.b64encode(digest).decode(), safe='-_.~')}"


def put(port):
    for _ in range(100):
        try:
            connection = http.client.HTTPConnection("127.0.0.1", port, timeout=10)
            connection.request("GET", signed(f"127.0.0.1:{port}"))
            return connection.getresponse().status
        except ConnectionRefusedError:
            time.sleep(0.1)
    return "nobody listens"


print(put(int(sys.argv[1])))
