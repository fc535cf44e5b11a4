#!/usr/bin/env python3
"""Compares `sdb bare` with a small model of it, over random lines.

The model is written from docs/PROFILE.md and docs/FORMATS.md and shares nothing with the program.
Usage: tools/compare/bare.py [SEED [LINES]]
It prints how often each code came, and ends with status 1 at the first answer that differs.
"""

import base64
import collections
import functools
import hashlib
import pathlib
import random
import re
import subprocess
import sys
import urllib.parse

import selects

PROGRAM = pathlib.Path(__file__).resolve().parents[1] / "sdb"
MOST_LINE = 1_048_576
ACTIONS = (
    "CreateDomain DeleteDomain ListDomains DomainMetadata PutAttributes BatchPutAttributes "
    "GetAttributes DeleteAttributes BatchDeleteAttributes Select"
).split()
MESSAGES = {
    "RequestTooLong": "The request body is too long.",
    "InvalidParameterValue": "The value of a parameter is invalid.",
    "InvalidParameterCombination": "The parameters do not go together.",
    "MissingParameter": "A required parameter is missing.",
    "InvalidAction": "The action is not valid.",
    "NoSuchDomain": "The specified domain does not exist.",
    "InvalidNextToken": "The token is not valid.",
    "NumberSubmittedAttributesExceeded": "The request has too many attributes.",
    "NumberSubmittedItemsExceeded": "The request has too many items.",
    "DuplicateItemName": "An item is named twice.",
    "NumberItemAttributesExceeded": "The item has too many attributes.",
    "NumberDomainAttributesExceeded": "The domain has too many attributes.",
    "NumberDomainBytesExceeded": "The domain or account has too many bytes.",
    "NumberDomainsExceeded": "The account has too many domains.",
    "ConditionalCheckFailed": "The conditional check failed.",
    "AttributeDoesNotExist": "The expected attribute does not exist.",
    "MultiValuedAttribute": "The expected attribute has several values.",
    "IncompleteExpectedExpression": "The expectation is incomplete.",
    "ExistsAndExpectedValue": "Exists=false has no value.",
    "MultipleExpectedNames": "Only one expectation is allowed.",
    "InvalidQueryExpression": "The query expression is not valid.",
    "InvalidNumberPredicates": "There are too many predicates.",
    "InvalidNumberValueTests": "There are too many value tests.",
    "InvalidSortExpression": "The sort attribute is not in a predicate.",
    "TooManyRequestedAttributes": "Too many attributes are requested.",
}
NUMBER = "(0|[1-9][0-9]{0,3})"
BARE = -1  # the place of an entry without a number
LISTING = b"\x01" + hashlib.sha256(b"ListDomains").digest() + b"\x00"  # what the bytes of its tokens begin with


Refused = selects.Refused


def need(params, name):
    if name not in params:
        raise Refused("MissingParameter")
    return params[name]


def check(holds):
    if not holds:
        raise Refused("InvalidParameterValue")


def is_name(text):
    return 1 <= len(text.encode()) <= 1024


def is_value(text):
    return len(text.encode()) <= 1024


def is_flag(text):
    return text.isascii() and text.lower() in ("true", "false")


def is_on(entry, part, word):
    return entry.get(part, "").lower() == word


def decoded(raw):
    spaced = raw.replace(b"+", b" ")
    return re.sub(rb"%([0-9A-Fa-f]{2})", lambda m: bytes([int(m[1], 16)]), spaced)


def parameters(form):
    pieces = [piece.partition(b"=") for piece in form.split(b"&") if piece]
    try:
        pairs = [(decoded(name).decode(), decoded(value).decode()) for name, _, value in pieces]
    except UnicodeDecodeError:
        raise Refused("InvalidParameterValue")
    if len(dict(pairs)) < len(pairs):
        raise Refused("InvalidParameterCombination")
    return dict(pairs)


def entries(params, word, parts):
    """The entries of a list by their numbers, each with its parts."""
    found = {}
    for name, value in params.items():
        match = re.fullmatch(rf"{word}\.{NUMBER}\.({'|'.join(parts)})", name)
        if match:
            found.setdefault(int(match[1]), {})[match[2]] = value
    return found


def in_order(found):
    if len(found) > 256:
        raise Refused("NumberSubmittedAttributesExceeded")
    return [found[number] for number in sorted(found)]


def attributes(params):
    return in_order(entries(params, "Attribute", ["Name", "Value", "Replace"]))


def named(entry):
    name = need(entry, "Name")
    check(is_name(name))
    return name


def put_pairs(params):
    pairs = []
    for entry in attributes(params) or [{}]:
        name, value = named(entry), need(entry, "Value")
        check(is_value(value))
        check(is_flag(entry.get("Replace", "false")))
        pairs.append((name, value, is_on(entry, "Replace", "true")))
    return pairs


def drop_parts(params):
    parts = []
    for entry in attributes(params):
        name, value = named(entry), entry.get("Value")
        check(value is None or is_value(value))
        parts.append((name, value))
    return parts


def asked_names(params):
    found = {BARE: params["AttributeName"]} if "AttributeName" in params else {}
    for name, value in params.items():
        match = re.fullmatch(rf"AttributeName\.{NUMBER}", name)
        if match:
            found[int(match[1])] = value
    names = in_order(found)
    for name in names:
        check(is_name(name))
    return names


def expectation(params):
    parts = ["Name", "Value", "Exists"]
    found = entries(params, "Expected", parts)
    bare = {part: params["Expected." + part] for part in parts if "Expected." + part in params}
    if bare:
        found[BARE] = bare
    if len(found) > 1:
        raise Refused("MultipleExpectedNames")
    for entry in found.values():
        if "Name" not in entry:
            raise Refused("IncompleteExpectedExpression")
        value = entry.get("Value")
        check(is_name(entry["Name"]))
        check(value is None or is_value(value))
        check(is_flag(entry.get("Exists", "true")))
        absent = is_on(entry, "Exists", "false")
        if absent and value is not None:
            raise Refused("ExistsAndExpectedValue")
        if not absent and value is None:
            raise Refused("IncompleteExpectedExpression")
        return entry["Name"], value
    return None


def judge(expected, pairs):
    if expected is None:
        return
    name, wanted = expected
    values = [value for other, value in pairs if other == name]
    if wanted is None:
        if values:
            raise Refused("ConditionalCheckFailed")
    elif not values:
        raise Refused("AttributeDoesNotExist")
    elif len(values) > 1:
        raise Refused("MultiValuedAttribute")
    elif values != [wanted]:
        raise Refused("ConditionalCheckFailed")


def items_of(domains, domain):
    if domain not in domains:
        raise Refused("NoSuchDomain")
    return domains[domain]


def count(items):
    return sum(len(pairs) for pairs in items.values())


@functools.cache
def pairs_weight(pairs):
    return sum(len(name.encode()) + len(value.encode()) + 64 for name, value in pairs)


def weight(items):
    return sum(len(name.encode()) + 64 + pairs_weight(pairs) for name, pairs in items.items())


def hold_limits(domains, domain, named):
    """Refuses what the domains would be, where items of one domain are put or it is made."""
    items = domains[domain]
    for item in named:
        if len(items[item]) > 256:
            raise Refused("NumberItemAttributesExceeded")
    if count(items) > 250_000:
        raise Refused("NumberDomainAttributesExceeded")
    if weight(items) > 33_554_432 or sum(weight(other) for other in domains.values()) > 67_108_864:
        raise Refused("NumberDomainBytesExceeded")


def with_items(items, left):
    """The items where those that are named have the pairs that are left."""
    new = {**items, **left}
    return {name: pairs for name, pairs in new.items() if pairs}


def after_puts(old, puts):
    replaced = {name for name, _, replace in puts if replace}
    kept = {pair for pair in old if pair[0] not in replaced}
    return frozenset(kept | {(name, value) for name, value, _ in puts})


def after_drops(old, parts):
    whole = {name for name, value in parts if value is None}
    return frozenset(pair for pair in old if parts and pair[0] not in whole and pair not in parts)


def write(domains, domain, asked, after, limited):
    """Writes items of a domain, each by what is asked of it, all or none."""
    items = items_of(domains, domain)
    left = {item: after(items.get(item, set()), of_item) for item, of_item in asked}
    new = {**domains, domain: with_items(items, left)}
    if limited:
        hold_limits(new, domain, [item for item, _ in asked])
    domains[domain] = new[domain]
    attributes = sum(len(of_item) for _, of_item in asked)
    return 2000 + 200 * attributes


def one(domains, domain, item, params, read, after, limited):
    of_item = read(params)
    expected = expectation(params)
    judge(expected, items_of(domains, domain).get(item, set()))
    return "", write(domains, domain, [(item, of_item)], after, limited)


def put(domains, domain, item, params):
    return one(domains, domain, item, params, put_pairs, after_puts, True)


def delete(domains, domain, item, params):
    return one(domains, domain, item, params, drop_parts, after_drops, False)


def batch_entries(params):
    parts = ["ItemName", rf"Attribute\.{NUMBER}\.(?:Name|Value|Replace)"]
    found = entries(params, "Item", parts)
    if len(found) > 25:
        raise Refused("NumberSubmittedItemsExceeded")
    if not found:
        raise Refused("MissingParameter")
    return [found[number] for number in sorted(found)]


def batch(domains, domain, params, read, after, limited):
    asked = []
    for entry in batch_entries(params):
        item = need(entry, "ItemName")
        check(is_name(item))
        asked.append((item, read(entry)))
    if len({item for item, _ in asked}) < len(asked):
        raise Refused("DuplicateItemName")
    return "", write(domains, domain, asked, after, limited) + 500 * len(asked)


def batch_put(domains, domain, params):
    return batch(domains, domain, params, put_pairs, after_puts, True)


def batch_delete(domains, domain, params):
    return batch(domains, domain, params, drop_parts, after_drops, False)


def create(domains, domain):
    new = {domain: {}, **domains}
    hold_limits(new, domain, [])
    if len(new) > max(len(domains), 250):
        raise Refused("NumberDomainsExceeded")
    domains.setdefault(domain, {})
    return "", 50_000


def element(tag, text):
    if re.search("[\x00-\x08\x0b\x0c\x0e-\x1f\ufffe\uffff]", text):
        encoded = base64.b64encode(text.encode()).decode()
        return f'<{tag} encoding="base64">{encoded}</{tag}>'
    for plain, escape in (("&", "&amp;"), ("<", "&lt;"), (">", "&gt;"), ("\r", "&#13;")):
        text = text.replace(plain, escape)
    return f"<{tag}>{text}</{tag}>"


def get(domains, domain, item, params):
    check(is_flag(params.get("ConsistentRead", "true")))
    names = asked_names(params)
    pairs = sorted(
        (pair for pair in items_of(domains, domain).get(item, ()) if not names or pair[0] in names),
        key=lambda pair: (pair[0].encode(), pair[1].encode()),
    )
    shown = "".join(
        f"<Attribute>{element('Name', name)}{element('Value', value)}</Attribute>"
        for name, value in pairs
    )
    return f"<GetAttributesResult>{shown}</GetAttributesResult>", 1000 + 50 * len(pairs)


def token_of(name):
    return base64.b64encode(LISTING + len(name).to_bytes(2, "big") + name).decode()


def name_in(token):
    """The name whose token a text is."""
    try:
        found = base64.b64decode(token.encode(), validate=True)
        name = found[len(LISTING) + 2 :].decode()
    except ValueError:
        raise Refused("InvalidNextToken")
    if not is_name(name) or token_of(name.encode()) != token:
        raise Refused("InvalidNextToken")
    return name


def list_domains(domains, params):
    most = params.get("MaxNumberOfDomains", "100")
    check(re.fullmatch("[1-9][0-9]{0,2}", most) and int(most) <= 100)
    token = params.get("NextToken")
    after = name_in(token).encode() if token else b""
    left = sorted(name for name in domains if name.encode() > after)
    names = left[: int(most)]
    shown = "".join(element("DomainName", name) for name in names)
    if len(left) > len(names):
        shown += element("NextToken", token_of(names[-1].encode()))
    return f"<ListDomainsResult>{shown}</ListDomainsResult>", 1000 + 100 * len(names)


def size(texts):
    return sum(len(text.encode()) for text in texts)


def metadata(items):
    pairs = [pair for item in items.values() for pair in item]
    names = {name for name, _ in pairs}
    numbers = {
        "ItemCount": len(items),
        "ItemNamesSizeBytes": size(items),
        "AttributeNameCount": len(names),
        "AttributeNamesSizeBytes": size(names),
        "AttributeValueCount": len(pairs),
        "AttributeValuesSizeBytes": size(value for _, value in pairs),
        "Timestamp": 0,
    }
    shown = "".join(element(tag, str(number)) for tag, number in numbers.items())
    return f"<DomainMetadataResult>{shown}</DomainMetadataResult>", 5000


def select(domains, params):
    expression = need(params, "SelectExpression")
    check(len(expression.encode()) <= MOST_LINE)
    check(is_flag(params.get("ConsistentRead", "true")))
    token = params.get("NextToken")
    check(not token or len(token.encode()) <= MOST_LINE)
    tree = selects.parse(expression)
    keyed = tree[3] is not None and tree[3][0] is not None
    if token:
        selects.position_in(token, expression, keyed)
    shown, following, units = selects.page(tree, expression, token, items_of(domains, tree[1]))
    if isinstance(shown, int):
        shown = [("Domain", [("Count", str(shown))])]
    result = ""
    for item, pairs in shown:
        named = "".join(
            f"<Attribute>{element('Name', name)}{element('Value', value)}</Attribute>" for name, value in pairs
        )
        result += f"<Item>{element('Name', item)}{named}</Item>"
    if following:
        result += element("NextToken", following)
    return f"<SelectResult>{result}</SelectResult>", units


def execute(domains, line):
    """The action of a line, its result and its units."""
    if len(line) > MOST_LINE:
        raise Refused("RequestTooLong")
    params = parameters(line)
    action = need(params, "Action")
    if action not in ACTIONS:
        raise Refused("InvalidAction")
    if action == "ListDomains":
        return (action, *list_domains(domains, params))
    if action == "Select":
        return (action, *select(domains, params))
    domain = need(params, "DomainName")
    check(re.fullmatch("[a-zA-Z0-9_.-]{3,255}", domain))
    if action == "CreateDomain":
        return (action, *create(domains, domain))
    if action == "DeleteDomain":
        domains.pop(domain, None)
        return action, "", 50_000
    if action == "DomainMetadata":
        return (action, *metadata(items_of(domains, domain)))
    if action == "BatchPutAttributes":
        return (action, *batch_put(domains, domain, params))
    if action == "BatchDeleteAttributes":
        return (action, *batch_delete(domains, domain, params))
    item = need(params, "ItemName")
    check(is_name(item))
    run = {"PutAttributes": put, "DeleteAttributes": delete, "GetAttributes": get}[action]
    return (action, *run(domains, domain, item, params))


def answer(domains, number, line):
    request = f"00000000-0000-0000-0000-{number:012x}"
    try:
        action, result, units = execute(domains, line)
    except Refused as refused:
        code = str(refused)
        return (
            '<?xml version="1.0"?>\n'
            f"<Response><Errors><Error><Code>{code}</Code><Message>{MESSAGES[code]}</Message>"
            "<BoxUsage>0.0000001000</BoxUsage></Error></Errors>"
            f"<RequestID>{request}</RequestID></Response>\n"
        )
    return (
        '<?xml version="1.0"?>\n'
        f'<{action}Response xmlns="http://sdb.amazonaws.com/doc/2009-04-15/">{result}'
        f"<ResponseMetadata><RequestId>{request}</RequestId><BoxUsage>0.{units:010d}</BoxUsage>"
        f"</ResponseMetadata></{action}Response>\n"
    )


def quoted(text):
    return urllib.parse.quote_plus(text, safe="()*,'`=<>!")


class Lines:
    """Random lines, most of them near the rules."""

    def __init__(self, seed):
        self.random = random.Random(seed)

    def happens(self, share):
        return self.random.random() < share

    def one(self, *words):
        return self.random.choice(words)

    def value(self):
        rare = ("", "%26", "a%01", "%C3%A9", "<>", "z" * 1024, "z" * 1025, "%0D", "%FF", "+")
        return self.one(*rare) if self.happens(0.05) else self.one("x", "y", "z")

    def attribute(self, prefix=""):
        number = self.one("01", "10000", "") if self.happens(0.03) else self.one("0", "1", "2", "10", "9999")
        if self.happens(0.97):
            yield f"{prefix}Attribute.{number}.Name", self.one("a", "b", "c")
        if self.happens(0.9):
            yield f"{prefix}Attribute.{number}.Value", self.value()
        if self.happens(0.3):
            yield f"{prefix}Attribute.{number}.Replace", self.one("true", "True", "false") if self.happens(0.98) else "maybe"

    def item(self):
        number = self.one("01", "x") if self.happens(0.02) else self.one("0", "1", "2", "10", "9999")
        if self.happens(0.98):
            yield f"Item.{number}.ItemName", self.one("i", "j", "k", "l", "m") if self.happens(0.98) else ""
        for _ in range(self.random.randrange(1, 4)):
            yield from self.attribute(f"Item.{number}.")

    def items(self):
        """A few items, or a list near its limit of 25."""
        if self.happens(0.05):
            for number in range(self.one(24, 25, 26)):
                yield f"Item.{number}.ItemName", f"i{number}"
                yield f"Item.{number}.Attribute.0.Name", "a"
                yield f"Item.{number}.Attribute.0.Value", "x"
            return
        for _ in range(self.random.randrange(0, 4)):
            yield from self.item()

    def wide(self):
        """Many attributes in one item, so that it comes to its limit of 256."""
        for number in range(self.one(100, 255, 256, 257)):
            yield f"Attribute.{number}.Name", f"w{self.random.randrange(400)}"
            yield f"Attribute.{number}.Value", "x"

    def domain(self):
        if self.happens(0.05):
            return f"d{self.random.randrange(400):03}"
        return self.one(*["books"] * 9, "abc", "Abc", "zzz") if self.happens(0.98) else "ab"

    def expectation(self):
        place = self.one(".1", ".7", "")
        if self.happens(0.95):
            yield f"Expected{place}.Name", self.one("a", "b", "c")
        if self.happens(0.6):
            yield f"Expected{place}.Value", self.one("x", "y", "z")
        if self.happens(0.4):
            yield f"Expected{place}.Exists", self.one("false", "true", "FALSE", "no")
        if self.happens(0.05):
            yield "Expected.3.Name", "a"

    def token(self):
        whole = token_of(self.one(b"abc", b"books", b"aaa", b"", b"\xc3\xa9"))
        token = whole if self.happens(0.7) else self.one("", whole[:-1], "B" + whole[1:], whole + "AA==", "x")
        return token.replace("+", "%2B").replace("=", "%3D")

    def text(self):
        return self.one("'x'", "'y'", "'z'", "''", '"x"', "'a%'", "'it''s'", "'%y%'", "'k'")

    def test(self):
        kind = self.one("compare", "compare", "like", "between", "in", "null")
        if kind == "compare":
            return f"{self.one('=', '!=', '<', '<=', '>', '>=')}{self.text()}"
        if kind == "like":
            return f"{self.one('', 'not ')}like {self.text()}"
        if kind == "between":
            return f"between {self.text()} and {self.text()}"
        if kind == "in":
            return f"in ({','.join(self.text() for _ in range(self.random.randrange(1, 4)))})"
        return f"is {self.one('', 'not ')}null"

    def condition(self, depth):
        if depth > 2 or self.happens(0.5):
            operand = self.one("a", "b", "`c`", "a", "b", "every(a)", "itemName()", "count", "every(b)")
            return f"{operand} {self.test()}"
        joint = self.one("and", "and", "or", "intersection", "AND")
        members = f" {joint} ".join(self.condition(depth + 1) for _ in range(self.random.randrange(2, 4)))
        return self.one(members, f"({members})", f"not ({members})")

    def expression(self):
        output = self.one("*", "itemName()", "count(*)", "a", "a, b", "*", "`b`,c,a")
        domain = self.one(*["books"] * 9, "`abc`", "zzz", "count")
        text = f"{self.one('select', 'SELECT')} {output} from {domain}"
        if self.happens(0.8):
            text += f" where {self.condition(0)}"
        if self.happens(0.4):
            text += f" order by {self.one('a', 'b', 'itemName()', 'c')}{self.one('', ' asc', ' desc', ' desc')}"
        if self.happens(0.6):
            text += f" limit {self.one('1', '1', '2', '3', '2500', '0', '01')}"
        if self.happens(0.03):
            text = text.replace(self.one(" ", "(", "'", "from", ","), self.one("", "!", "  ", "é", "1a"), 1)
        return text

    def place(self, expression):
        """A token of the expression, or nearly."""
        keyed = "order by" in expression and "order by itemName" not in expression
        key = self.one(b"x", b"y", b"", b"a", b"\xff") if self.happens(0.95) == keyed else None
        of = expression if self.happens(0.95) else expression + " "
        token = selects.token_of(of, key, self.one(b"i", b"j", b"", b"h", b"k"))
        return token if self.happens(0.95) else token[1:]

    def select(self):
        yield "Action", "Select"
        expression = self.expression()
        if self.happens(0.98):
            yield "SelectExpression", quoted(expression)
        if self.happens(0.3):
            yield "NextToken", quoted(self.place(urllib.parse.unquote_plus(quoted(expression))))
        if self.happens(0.1):
            yield "ConsistentRead", self.one("true", "FALSE", "x")

    def parameters(self):
        if self.happens(0.3):
            yield from self.select()
            return
        often = ["PutAttributes"] * 6 + ["GetAttributes"] * 4 + ["DeleteAttributes"] * 3
        often += ["BatchPutAttributes"] * 3 + ["BatchDeleteAttributes"] * 2
        seldom = ["CreateDomain"] * 3 + ["ListDomains"] * 2 + ["DomainMetadata"]
        yield "Action", self.one(*often, *seldom, "DeleteDomain", "Select", "Fly")
        if self.happens(0.1):
            yield "MaxNumberOfDomains", self.one("1", "2", "100", "101", "01", "x")
        if self.happens(0.1):
            yield "NextToken", self.token()
        if self.happens(0.98):
            yield "DomainName", self.domain()
        if self.happens(0.98):
            yield "ItemName", self.one("i", "j") if self.happens(0.98) else ""
        yield from self.items()
        if self.happens(0.05):
            yield from self.wide()
        for _ in range(self.random.randrange(1, 4)):
            yield from self.attribute()
        if self.happens(0.3):
            yield from self.expectation()
        if self.happens(0.3):
            yield self.one("AttributeName", "AttributeName.1", "AttributeName.20", "AttributeName.007"), self.one("a", "b")
        if self.happens(0.1):
            yield "ConsistentRead", self.one("true", "FALSE", "x")

    def line(self):
        params = list(self.parameters())
        if self.happens(0.95):
            params = list(dict(params).items())
        self.random.shuffle(params)
        return "&".join(f"{name}={value}" for name, value in params).encode()


def compare(lines):
    """Holds the program's answers to the model's, and gives how often each code came."""
    run = subprocess.run([PROGRAM, "bare"], input=b"\n".join(lines) + b"\n", stdout=subprocess.PIPE)
    got = [b"<?xml" + text for text in run.stdout.split(b"<?xml")[1:]]
    if run.returncode != 0 or len(got) != len(lines):
        sys.exit(f"status {run.returncode}, {len(got)} answers to {len(lines)} lines")
    domains = {}
    codes = collections.Counter()
    for number, (line, text) in enumerate(zip(lines, got), start=1):
        wanted = answer(domains, number, line)
        if text != wanted.encode():
            sys.exit(f"line {number}: {line[:400]!r}\nwanted {wanted[:600]!r}\ngot    {text[:600]!r}")
        codes[re.search("<Code>(.*)</Code>", wanted)[1] if "<Code>" in wanted else "done"] += 1
    return codes


def main():
    seed = int(sys.argv[1]) if len(sys.argv) > 1 else 1
    count = int(sys.argv[2]) if len(sys.argv) > 2 else 20_000
    source = Lines(seed)
    lines = [b"Action=CreateDomain&DomainName=books", b"", b"x" * MOST_LINE, b"x" * (MOST_LINE + 1)]
    lines += [source.line() for _ in range(count)]
    codes = compare(lines)
    print(f"{len(lines)} lines are answered alike:", ", ".join(f"{code} {n}" for code, n in codes.most_common()))


if __name__ == "__main__":
    main()
