"""Random requests to the objects of a trader, for the programs in this folder."""

from requests import describe, export, modify, next_n, query, request, withdraw

FILE = """address h 9
trader A
type Printer IDL:Printer:1.0
prop normal ulong Cost
trader B
type Printer IDL:Printer:1.0
offer Printer ref:IDL:Printer:1.0,h,9,p
link a A always always
"""


def one_of(chance):
    """A request of some object, whole."""
    number = chance.randrange(1, 40)
    return chance.choice([
        lambda: query("Cost < 10", "min Cost", chance.randrange(3), chance.randrange(5)),
        lambda: query("", "random", 2, 1),
        lambda: export(number),
        lambda: describe(number),
        lambda: modify(number, number),
        lambda: withdraw(number),
        lambda: next_n(number, 2),
        lambda: request(f"A/I/{number}", "max_left", lambda it: None),
        lambda: request(f"A/I/{number}", "destroy", lambda it: None),
        lambda: request("A/A", "list_offers", lambda it: it.ulong(3)),
        lambda: request("A/T", "list_types", lambda it: it.ulong(0)),
        lambda: request("A/T", "mask_type", lambda it: it.string("Printer")),
        lambda: request("A/T", "unmask_type", lambda it: it.string("Printer")),
        lambda: request("B/K", "list_links", lambda it: None),
        lambda: request("B/L", "_get_def_hop_count", lambda it: None),
        lambda: request("B/L", "_non_existent", lambda it: None),
    ])()


def body_place(message):
    """Where a request's body begins: behind its key, its operation and an empty principal."""
    place = 24
    for _ in range(3):
        place += -place % 4
        place += 4 + int.from_bytes(message[place : place + 4], "big")
    return place


def changed(chance, message):
    """The message with a few bytes of its body changed."""
    it = bytearray(message)
    begin = body_place(message)
    for _ in range(chance.randrange(4) if begin < len(it) else 0):
        it[chance.randrange(begin, len(it))] = chance.randrange(256)
    return bytes(it)


def damaged(chance, message):
    """The message with one to three bytes of its body changed, or a byte of its key or its operation, where it has no
    body and else once in ten times."""
    it = bytearray(message)
    begin = body_place(message)
    if begin < len(it) and chance.randrange(10):
        places = [chance.randrange(begin, len(it)) for _ in range(chance.randrange(1, 4))]
    else:
        places = [chance.choice(words_places(message))]
    for place in places:
        # (a NUL inside an operation would end the session)
        it[place] = chance.choice([byte for byte in range(1, 256) if byte != message[place]])
    return bytes(it)


def words_places(message):
    """The places of a request's key and of its operation, but for the operation's closing NUL."""
    key = range(28, 28 + int.from_bytes(message[24:28], "big"))
    length = key.stop + -key.stop % 4
    size = int.from_bytes(message[length : length + 4], "big")
    return [*key, *range(length + 4, length + 3 + size)]
