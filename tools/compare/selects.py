"""A small model of Select, written from docs/SELECT.md and docs/FORMATS.md; it shares nothing with the program."""

import base64
import hashlib
import re

KEYWORDS = (
    "or and not from where select like null is order by asc desc in between intersection limit every"
).split()
SYMBOLS = ("!=", "<=", ">=", "(", ")", ",", "*", "=", "<", ">")
MOST_BYTES = 1_048_576


class Refused(Exception):
    pass


def bad():
    raise Refused("InvalidQueryExpression")


# ---- tokens: pairs of a kind and a text


def enclosed(text, at):
    """The text between the sign at `at` and the one that closes it, and the place behind that."""
    sign, inner, place = text[at], "", at + 1
    while place < len(text):
        if text[place] != sign:
            inner += text[place]
            place += 1
        elif text[place + 1 : place + 2] == sign:
            inner += sign
            place += 2
        else:
            return inner, place + 1
    bad()


def tokens(text):
    at = 0
    while at < len(text):
        if text[at] in " \t\r\n":
            at += 1
            continue
        word = re.compile("[A-Za-z_$][A-Za-z0-9_$]*").match(text, at)
        digits = re.compile("[0-9]+").match(text, at)
        if word:
            yield "word", word[0]
            at = word.end()
        elif digits:
            at = digits.end()
            if re.compile("[A-Za-z_$]").match(text, at):
                bad()
            yield "digits", digits[0]
        elif text[at] in "'\"":
            inner, at = enclosed(text, at)
            yield "quoted", inner
        elif text[at] == "`":
            inner, at = enclosed(text, at)
            if not inner:
                bad()
            yield "name", inner
        else:
            sign = next((sign for sign in SYMBOLS if text.startswith(sign, at)), None)
            if sign is None:
                bad()
            yield "sign", sign
            at += len(sign)


def terms(text):
    for kind, content in tokens(text):
        if kind == "word" and content.lower() in KEYWORDS:
            yield "key", content.lower()
        else:
            yield kind, content


# ---- trees: tuples that begin with what they are


class Reader:
    def __init__(self, text):
        self.terms = list(terms(text))
        self.at = 0

    def peek(self, ahead=0):
        place = self.at + ahead
        return self.terms[place] if place < len(self.terms) else ("end", "")

    def take(self):
        term = self.peek()
        self.at += 1
        return term

    def passes(self, *term):
        if self.peek() == term:
            self.at += 1
            return True
        return False

    def need(self, *term):
        if not self.passes(*term):
            bad()

    def sees_call(self, word):
        kind, content = self.peek()
        return kind == "word" and content.lower() == word and self.peek(1) == ("sign", "(")

    def name(self):
        kind, content = self.take()
        if kind not in ("word", "name"):
            bad()
        if kind == "word" and content.lower() in ("itemname", "count") and self.peek() == ("sign", "("):
            bad()
        return content

    def attribute(self):
        name = self.name()
        if not 1 <= len(name.encode()) <= 1024:
            bad()
        return name

    def text(self):
        kind, content = self.take()
        if kind != "quoted":
            bad()
        return content

    def item_name(self):
        self.take()
        self.need("sign", "(")
        self.need("sign", ")")

    def output(self):
        if self.passes("sign", "*"):
            return ("all",)
        if self.sees_call("itemname"):
            self.item_name()
            return ("names",)
        if self.sees_call("count"):
            self.take()
            self.need("sign", "(")
            self.need("sign", "*")
            self.need("sign", ")")
            return ("count",)
        names = [self.attribute()]
        while self.passes("sign", ","):
            names.append(self.attribute())
        return "listed", names

    def members(self, separator, member, depth):
        found = [member(depth)]
        while self.passes("key", separator):
            found.append(member(depth))
        return found[0] if len(found) == 1 else (separator, found)

    def either(self, depth):
        return self.members("or", self.both, depth)

    def both(self, depth):
        return self.members("and", self.meeting, depth)

    def meeting(self, depth):
        return self.members("intersection", self.unary, depth)

    def unary(self, depth):
        if self.peek() in (("key", "not"), ("sign", "(")) and depth == 32:
            bad()
        if self.passes("key", "not"):
            return "not", self.unary(depth + 1)
        if self.passes("sign", "("):
            inner = self.either(depth + 1)
            self.need("sign", ")")
            return inner
        return self.predicate()

    def predicate(self):
        if self.passes("key", "every"):
            self.need("sign", "(")
            operand = "every", self.attribute()
            self.need("sign", ")")
        elif self.sees_call("itemname"):
            self.item_name()
            operand = "name", None
        else:
            operand = "attribute", self.attribute()
        test = self.test()
        if operand[0] == "every" and test[0] in ("null", "there"):
            bad()
        return "predicate", operand, test

    def test(self):
        kind, content = self.take()
        if kind == "sign" and content in ("=", "!=", "<", "<=", ">", ">="):
            return content, self.text()
        if (kind, content) == ("key", "like"):
            return "like", self.text()
        if (kind, content) == ("key", "not"):
            self.need("key", "like")
            return "not like", self.text()
        if (kind, content) == ("key", "between"):
            low = self.text()
            self.need("key", "and")
            return "between", low, self.text()
        if (kind, content) == ("key", "in"):
            self.need("sign", "(")
            texts = [self.text()]
            while self.passes("sign", ","):
                texts.append(self.text())
            self.need("sign", ")")
            return "in", texts
        if (kind, content) == ("key", "is"):
            there = self.passes("key", "not")
            self.need("key", "null")
            return ("there",) if there else ("null",)
        bad()

    def order(self):
        if not self.passes("key", "order"):
            return None
        self.need("key", "by")
        key = None
        if self.sees_call("itemname"):
            self.item_name()
        else:
            key = self.attribute()
        falls = self.passes("key", "desc")
        if not falls:
            self.passes("key", "asc")
        return key, falls

    def limit(self):
        if not self.passes("key", "limit"):
            return None
        kind, content = self.take()
        if kind != "digits" or not re.fullmatch("[1-9][0-9]{0,3}", content) or int(content) > 2500:
            bad()
        return int(content)

    def select(self):
        self.need("key", "select")
        output = self.output()
        self.need("key", "from")
        domain = self.name()
        condition = self.either(0) if self.passes("key", "where") else None
        order = self.order()
        limit = self.limit()
        if self.peek()[0] != "end":
            bad()
        return output, domain, condition, order, limit


def predicates(condition):
    if condition is None:
        return
    if condition[0] == "predicate":
        yield condition
    elif condition[0] == "not":
        yield from predicates(condition[1])
    else:
        for member in condition[1]:
            yield from predicates(member)


def parse(text):
    if len(text.encode()) > 65_536:
        bad()
    select = Reader(text).select()
    output, _, condition, order, _ = select
    found = list(predicates(condition))
    if output[0] == "listed" and len(output[1]) > 256:
        raise Refused("TooManyRequestedAttributes")
    if len(found) > 20:
        raise Refused("InvalidNumberPredicates")
    if any(test[0] == "in" and len(test[1]) > 20 for _, _, test in found):
        raise Refused("InvalidNumberValueTests")
    if order and order[0] is not None:
        named = [operand[1] for _, operand, test in found if operand[0] != "name" and test[0] != "null"]
        if order[0] not in named:
            raise Refused("InvalidSortExpression")
    return select


# ---- what a condition means


def pattern(text):
    parts, at = [b""], 0
    while at < len(text):
        if text[at] == "\\" and text[at + 1 : at + 2] in ("%", "\\"):
            parts[-1] += text[at + 1].encode()
            at += 2
        elif text[at] == "%":
            parts.append(b"")
            at += 1
        else:
            parts[-1] += text[at].encode()
            at += 1
    return re.compile(b".*".join(re.escape(part) for part in parts), re.DOTALL)


def fits(test, value):
    value = value.encode()
    kind, *texts = test
    if kind == "in":
        return value in [text.encode() for text in texts[0]]
    if kind == "like":
        return bool(pattern(texts[0]).fullmatch(value))
    if kind == "not like":
        return not pattern(texts[0]).fullmatch(value)
    texts = [text.encode() for text in texts]
    return {
        "=": lambda: value == texts[0],
        "!=": lambda: value != texts[0],
        "<": lambda: value < texts[0],
        "<=": lambda: value <= texts[0],
        ">": lambda: value > texts[0],
        ">=": lambda: value >= texts[0],
        "between": lambda: texts[0] <= value <= texts[1],
    }[kind]()


def sole(condition):
    """The attribute that a condition is sole on."""
    if condition[0] == "predicate":
        _, operand, test = condition
        return operand[1] if operand[0] == "attribute" and test[0] not in ("null", "there") else None
    if condition[0] in ("and", "or"):
        found = {sole(member) for member in condition[1]}
        return found.pop() if len(found) == 1 else None
    return None


def asks(condition, value):
    if condition[0] == "predicate":
        return fits(condition[2], value)
    every = all if condition[0] == "and" else any
    return every(asks(member, value) for member in condition[1])


def values_of(pairs, attribute):
    return [value for name, value in pairs if name == attribute]


def holds_predicate(operand, test, name, pairs):
    if operand[0] == "name":
        return test[0] == "there" if test[0] in ("null", "there") else fits(test, name)
    values = values_of(pairs, operand[1])
    if test[0] == "null":
        return not values
    if test[0] == "there":
        return bool(values)
    if operand[0] == "every":
        return bool(values) and all(fits(test, value) for value in values)
    return any(fits(test, value) for value in values)


def together(members, attribute):
    """What the members that are sole on an attribute ask of one value."""
    asking = [member for member in members if sole(member) == attribute]
    return lambda value: all(asks(member, value) for member in asking)


def holds(condition, name, pairs):
    if condition is None:
        return True
    kind = condition[0]
    if kind == "predicate":
        return holds_predicate(condition[1], condition[2], name, pairs)
    if kind == "not":
        return not holds(condition[1], name, pairs)
    members = condition[1]
    if kind == "or":
        return any(holds(member, name, pairs) for member in members)
    if kind == "intersection":
        return all(holds(member, name, pairs) for member in members)
    for member in members:
        attribute = sole(member)
        if attribute is None:
            if not holds(member, name, pairs):
                return False
        elif not any(map(together(members, attribute), values_of(pairs, attribute))):
            return False
    return True


def count(items, attribute, passes):
    return sum(any(map(passes, values_of(pairs, attribute))) for pairs in items.values())


def bound(condition, items):
    if condition is None or condition[0] == "not":
        return len(items)
    kind = condition[0]
    attribute = sole(condition)
    if attribute is not None:
        return count(items, attribute, lambda value: asks(condition, value))
    if kind == "predicate":
        _, operand, test = condition
        if operand[0] == "name":
            return sum(fits(test, name) for name in items) if test[0] in ("=", "in") else len(items)
        if test[0] == "null":
            return len(items)
        passes = (lambda value: True) if test[0] == "there" else (lambda value: fits(test, value))
        return count(items, operand[1], passes)
    members = condition[1]
    if kind == "or":
        return min(len(items), sum(bound(member, items) for member in members))
    if kind == "intersection":
        return min(bound(member, items) for member in members)
    parts = [bound(member, items) for member in members if sole(member) is None]
    attributes = {sole(member) for member in members} - {None}
    return min(parts + [count(items, attribute, together(members, attribute)) for attribute in attributes])


# ---- positions


def position_bytes(key, name):
    front = b"\x00" if key is None else b"\x01" + len(key).to_bytes(2, "big") + key
    return front + len(name).to_bytes(2, "big") + name


def token_of(expression, key, name):
    digest = hashlib.sha256(expression.encode()).digest()
    return base64.b64encode(b"\x01" + digest + position_bytes(key, name)).decode()


def position_in(token, expression, keyed):
    """The key and the name of a token of this expression."""
    front = b"\x01" + hashlib.sha256(expression.encode()).digest()
    try:
        found = base64.b64decode(token.encode(), validate=True)
        rest = found[len(front) :]
        key = None
        if keyed:
            size = int.from_bytes(rest[1:3], "big")
            key, rest = rest[3 : 3 + size], rest[3 + size :]
            key.decode()
        else:
            rest = rest[1:]
        name = rest[2:]
        name.decode()
    except ValueError:
        raise Refused("InvalidNextToken")
    if not 1 <= len(name) <= 1024 or (key is not None and len(key) > 1024):
        raise Refused("InvalidNextToken")
    if token_of(expression, key, name) != token:
        raise Refused("InvalidNextToken")
    return key, name


# ---- pages


class Turned:
    """Bytes in falling order."""

    def __init__(self, text):
        self.text = text

    def __lt__(self, other):
        return self.text > other.text

    def __eq__(self, other):
        return self.text == other.text


def spot_of(order, key, name):
    attribute, falls = order or (None, False)
    key = name if attribute is None else key
    return (Turned(key) if falls else key, name)


def key_of(order, pairs):
    attribute, falls = order or (None, False)
    values = [value.encode() for value in values_of(pairs, attribute)]
    if attribute is None or not values:
        return None
    return max(values) if falls else min(values)


def shown(output, pairs):
    if output[0] in ("names", "count"):
        return []
    named = [pair for pair in pairs if output[0] == "all" or pair[0] in output[1]]
    return sorted(named, key=lambda pair: (pair[0].encode(), pair[1].encode()))


def page(select, expression, token, items):
    """The items of a page or what it counts, the token behind it, and its units."""
    output, _, condition, order, limit = select
    keyed = order is not None and order[0] is not None
    rows = []
    for name, pairs in items.items():
        key = key_of(order, pairs)
        if holds(condition, name, pairs) and not (keyed and key is None):
            rows.append((spot_of(order, key, name.encode()), key, name, shown(output, pairs)))
    rows.sort(key=lambda row: row[0])
    if token:
        start = spot_of(order, *position_in(token, expression, keyed))
        rows = [row for row in rows if start < row[0]]
    counts = output[0] == "count"
    most = limit or (len(rows) if counts else 100)
    taken, room = [], MOST_BYTES
    for row in rows:
        room -= 0 if counts else len(row[2].encode()) + sum(len(text.encode()) for pair in row[3] for text in pair)
        if len(taken) == most or room < 0:
            break
        taken.append(row)
    following = None
    if len(taken) < len(rows) and taken:
        following = token_of(expression, taken[-1][1], taken[-1][2].encode())
    units = 1500 + 20 * bound(condition, items)
    if counts:
        return len(taken), following, units
    return [row[2:] for row in taken], following, units + 100 * len(taken) + 50 * sum(len(row[3]) for row in taken)
