"""Reads the log of a network of traders (docs/LOGS.md): a line for each event, in order, with one space between words.

    words NUMBER ..                in the first line alone: the random words that the network draws
    change TRADER REQUEST REPLY    a change that was accepted
    look TRADER REQUEST REPLY      a call that reads what a trader has
    ask TRADER REQUEST             a query of a client, which opens a call; calls are counted from 0
    deliver CALL                   the call came to its trader
    value CALL ANY                 its visit got the value that it waited for, or none, which is `-`
    answer CALL                    what it ended with was handed to its caller
    lose CALL                      its caller was handed that it failed
    reply CALL REPLY               the reply to the query that opened it

REQUEST and REPLY are whole GIOP messages and ANY is an any in big order, all in hexadecimal digits.
"""

import re

from traders import Octets, encapsulated, text_of

REQUEST, REPLY = 0, 1
# How many words follow the first of a line.
FORMS = {"change": 3, "look": 3, "ask": 2, "deliver": 1, "value": 2, "answer": 1, "lose": 1, "reply": 2}
# The operations that the Request of a line may call, by the line's first word.
OPERATIONS = {
    "change": "export|withdraw|modify|withdraw_using_constraint|export_proxy|withdraw_proxy|(add|remove|modify)_link"
    "|(add|remove|mask|unmask)_type|set_.*",
    "look": "describe(_proxy|_link|_type)?|list_(links|offers|proxies|types)|fully_describe_type|_get_.*",
    "ask": "query",
}
# Kinds of TypeCodes: of numbers each with its name and size, and others.
ULONG = 5
NUMBERS = {2: ("short", 2), 3: ("long", 4), 4: ("ushort", 2), ULONG: ("ulong", 4)}
NUMBERS |= {23: ("longlong", 8), 24: ("ulonglong", 8)}
SIGNED, NOTHING = (2, 3, 23), (0, 1)
BOOLEAN, CHAR, OCTET, ANY, OBJECT, STRUCT, ENUM, STRING, SEQUENCE, ALIAS = 8, 9, 10, 11, 14, 15, 17, 18, 19, 21
RULES = ("local_only", "if_no_local", "always")


class BadLine(Exception):
    """A line that isn't one of the table, or that the network can't have come to: its number from 1, and why."""

    def __init__(self, number, why):
        super().__init__(f"line {number}: {why}")
        self.number = number


class Strange(ValueError):
    """An any of a type that isn't read here."""


class Line:
    """What a line records: the trader and the Request, the call, and what else is told in words."""

    def __init__(self, number, kind, trader=None, call=None, request=None, told=""):
        self.number, self.kind, self.trader, self.call = number, kind, trader, call
        self.request, self.told = request, told


class Request:
    def __init__(self, operation, body):
        self.operation, self.body = operation, body


class Query:
    """What an ask states, as far as it says where the query goes."""

    def __init__(self, body):
        self.type, self.constraint, self.preference = body.string(), body.string(), body.string()
        self.path, self.rule, self.hops, self.identifier = [], None, None, None
        try:
            for _ in range(body.number(4)):
                self.take(body.string(), code_of(body), body)
        except Strange:
            # (what stands behind such a policy can't be found)
            pass

    def take(self, name, code, body):
        """Takes a policy; one of another type than its own has the query refused."""
        value = value_of(code, body)
        if (name, code) == ("hop_count", (ULONG, None)):
            self.hops = value
        elif (name, code[0]) == ("link_follow_rule", ENUM):
            self.rule = RULES[code[1].index(value)] if value in code[1][:3] else None
        elif (name, code) == ("starting_trader", (SEQUENCE, (STRING, None))):
            self.path = value
        elif (name, code) == ("request_id", (SEQUENCE, (OCTET, None))):
            self.identifier = tuple(value)

    def text(self):
        return ", ".join(filter(None, (self.type, self.constraint, self.preference)))


def code_of(it):
    """A TypeCode: its kind, and what its values are made of."""
    kind = it.number(4)
    if kind == STRING:
        it.number(4)
    if kind in NUMBERS or kind in (*NOTHING, BOOLEAN, CHAR, OCTET, ANY, STRING):
        return kind, None
    if kind not in (OBJECT, STRUCT, ENUM, SEQUENCE, ALIAS):
        raise Strange
    inner = encapsulated(it.sequence())
    if kind == SEQUENCE:
        return kind, code_of(inner)
    inner.string(), inner.string()
    if kind == ALIAS:
        return code_of(inner)
    if kind == ENUM:
        return kind, [inner.string() for _ in range(inner.number(4))]
    members = range(inner.number(4)) if kind == STRUCT else ()
    return kind, [(inner.string(), code_of(inner)) for _ in members] or None


def value_of(code, it):
    """A value of this type."""
    kind, parts = code
    if kind in NUMBERS:
        return it.number(NUMBERS[kind][1], kind in SIGNED)
    if kind in (BOOLEAN, CHAR, OCTET):
        octet = it.take(1)
        return {BOOLEAN: bool(octet[0]), CHAR: text_of(octet), OCTET: octet[0]}[kind]
    if kind == STRING:
        return it.string()
    if kind == ENUM:
        number = it.number(4)
        return parts[number] if number < len(parts) else number
    if kind == SEQUENCE:
        return [value_of(parts, it) for _ in range(it.number(4))]
    if kind == STRUCT:
        return [value_of(inner, it) for _, inner in parts]
    if kind == ANY:
        return value_of(code_of(it), it)
    return it.reference().key if kind == OBJECT else None


def any_text(octets):
    """An any in words."""
    it = Octets(octets, "big")
    try:
        code = code_of(it)
        value = value_of(code, it)
    except Strange:
        return "a value"
    if it.at != len(octets):
        raise ValueError
    names = {kind: name for kind, (name, _) in NUMBERS.items()}
    names |= {BOOLEAN: "boolean", CHAR: "char", OCTET: "octet", STRING: "string"}
    shown = ",".join(map(str, value)) if isinstance(value, list) else str(value)
    return f"{names[code[0]]} {shown}" if code[0] in names else shown


def octets_of(digits):
    if not re.fullmatch("(?:[0-9A-Fa-f]{2})+", digits):
        raise ValueError
    return bytes.fromhex(digits)


def message_of(digits, kind):
    """What follows the header of a message of GIOP 1.0 or 1.1, with its minor version."""
    octets = octets_of(digits)
    head, size = octets[:12], len(octets) - 12
    order = "little" if head[6:7] == b"\1" else "big"
    is_good = head[:5] == b"GIOP\1" and head[5:7] in (b"\0\0", b"\0\1", b"\1\0", b"\1\1") and head[7:8] == bytes([kind])
    if not is_good or int.from_bytes(head[8:], order) != size:
        raise ValueError
    it = Octets(octets, order, 12)
    for _ in range(it.number(4)):
        it.number(4), it.sequence()
    return it, head[5]


def request_of(kind, trader, digits):
    """A Request to an object of a trader, whose operation is one of such a line."""
    try:
        it, minor = message_of(digits, REQUEST)
        it.number(4), it.take(4 if minor else 1)
        key, operation = text_of(it.sequence()), it.string()
        it.sequence()
    except ValueError:
        raise ValueError("the Request isn't a whole one of GIOP 1.0 or 1.1") from None
    if not re.fullmatch(re.escape(trader) + "/[LRKPAT]", key):
        raise ValueError(f"the key {key} isn't that of an object of {trader}")
    if not re.fullmatch(OPERATIONS[kind], operation):
        raise ValueError(f"{operation} is no operation of such a line")
    return Request(operation, it)


def reply_of(digits):
    """A Reply: the exception in short, or nothing, and what follows it."""
    try:
        it, _ = message_of(digits, REPLY)
        it.number(4)
        status = it.number(4)
        if status > 2:
            raise ValueError
        name = re.sub(":.*", "", it.string().rsplit("/", 1)[-1]) if status else ""
    except ValueError:
        raise ValueError("the Reply isn't a whole one of GIOP 1.0 or 1.1") from None
    return name, it


def number_of(word):
    if not re.fullmatch("0|[1-9][0-9]*", word) or int(word) >= 2**64:
        raise ValueError(f"`{word}` is no number")
    return int(word)


def to_trader(number, kind, words, traders):
    """A line with a trader and a Request, and but for an ask with a Reply."""
    trader = words[0]
    if traders is not None and trader not in traders:
        raise ValueError(f"no trader {trader}")
    request = request_of(kind, trader, words[1])
    if kind == "ask":
        try:
            query = Query(request.body)
        except ValueError:
            raise ValueError("the Request's body is no query") from None
        return Line(number, kind, trader, request=query, told=query.text())
    exception, _ = reply_of(words[2])
    return Line(number, kind, trader, request=request, told=": ".join(filter(None, (request.operation, exception))))


def of_call(number, kind, words):
    """A line with a call."""
    call = number_of(words[0])
    told = ""
    if kind == "value" and words[1] == "-":
        told = "none"
    elif kind == "value":
        try:
            told = any_text(octets_of(words[1]))
        except ValueError:
            raise ValueError("the value is no any") from None
    elif kind == "reply":
        told = found_of(*reply_of(words[1]))
    return Line(number, kind, call=call, told=told)


def found_of(exception, body):
    """What a query was answered with."""
    try:
        number = body.number(4) if not exception else 0
    except ValueError:
        raise ValueError("the Reply's body is no query's") from None
    return exception or f"{number} offer{'' if number == 1 else 's'}"


def line_of(number, text, traders):
    kind, *words = text.split(" ")
    if kind == "words" and number == 1 and words:
        return Line(number, kind, told=" ".join(str(number_of(it)) for it in words))
    if FORMS.get(kind) != len(words) or "" in words:
        raise ValueError("no line of a log")
    return to_trader(number, kind, words, traders) if kind in OPERATIONS else of_call(number, kind, words)


def lines_of(octets, traders):
    """The lines of a log, over traders of these names where any are told."""
    texts = octets.split(b"\n")
    if texts[-1] == b"":
        texts.pop()
    lines = []
    for number, text in enumerate(texts, 1):
        try:
            lines.append(line_of(number, text_of(text), traders))
        except ValueError as why:
            raise BadLine(number, str(why) or "no line of a log") from None
    return lines
