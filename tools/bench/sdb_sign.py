"""Signs puts of several sizes, and times their check in Python beside the rates of `sdb_sign::verify`."""
import base64
import hashlib
import hmac
import sys
import time
from urllib.parse import parse_qsl, quote

SECRET = b"SECRET1"
HOST = "LocalHost:8080"
SIZES = [1, 16, 256]


def escape(text):
    return quote(text, safe="-_.~")


def text_to_sign(params):
    pairs = sorted((name.encode(), value) for name, value in params.items() if name != "Signature")
    query = "&".join(escape(name) + "=" + escape(value) for name, value in pairs)
    return "GET\n" + HOST.lower() + "\n/\n" + query


def signature_of(text):
    return base64.b64encode(hmac.new(SECRET, text.encode(), hashlib.sha256).digest()).decode()


def get():
    return {
        "AWSAccessKeyId": "AK1",
        "Action": "GetAttributes",
        "DomainName": "books",
        "ItemName": "i1",
        "SignatureMethod": "HmacSHA256",
        "SignatureVersion": "2",
        "Timestamp": "2010-01-01T00:00:00Z",
        "Version": "2009-04-15",
    }


def put(size):
    params = get()
    params["Action"] = "PutAttributes"
    for number in range(size):
        params["Attribute.%d.Name" % number] = "author %d" % number
        params["Attribute.%d.Value" % number] = "Jane Austen, volume %d" % number
    return signed(params)


def signed(params):
    """A form in the order of its names, as clients send it, with the signature last."""
    params = dict(sorted(params.items()))
    params["Signature"] = signature_of(text_to_sign(params))
    return "&".join(escape(name) + "=" + escape(value) for name, value in params.items())


def is_signed(params):
    return hmac.compare_digest(params["Signature"], signature_of(text_to_sign(params)))


def rate_of(call):
    """The greatest rate per second of five runs of about 0.2 s each."""
    greatest = 0.0
    for _ in range(5):
        calls = 0
        start = time.perf_counter()
        while time.perf_counter() - start < 0.2:
            for _ in range(10):
                call()
            calls += 10
        greatest = max(greatest, calls / (time.perf_counter() - start))
    return greatest


def show(requests, rates):
    for size, request, rate in zip(SIZES, open(requests), open(rates)):
        params = dict(parse_qsl(request.rstrip("\n"), keep_blank_values=True))
        text = text_to_sign(params)
        whole = rate_of(lambda: is_signed(params))
        alone = rate_of(lambda: signature_of(text))
        ours = float(rate)
        print(
            "%d %d %.0f %.0f %.0f %.2f %.2f"
            % (size, len(text), ours, whole, alone, ours / whole, ours / alone)
        )


if sys.argv[1] == "make":
    for size in SIZES:
        print(put(size))
elif sys.argv[1] == "forms":
    print(signed(get()))
    print(put(5))
elif sys.argv[1] == "create":
    params = get()
    params["Action"] = "CreateDomain"
    del params["ItemName"]
    print(signed(params))
else:
    show(sys.argv[2], sys.argv[3])
