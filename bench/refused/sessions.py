"""Sessions whose every allocation is refused in turn: a server's file, Requests, and looks at what the stores hold."""

import collections

from requests import ULONG, query, request

# A session's file with {port} for that of the peer outside, what is asked while allocations are refused, what is asked
# behind that, and which operations of the peer are called.
Session = collections.namedtuple("Session", "file requests looks peer", defaults=((),))

HEAD = "address h 9\n"
PRINTER = "type Printer IDL:Printer:1.0\n"
LOOKUP, REGISTER = (f"ref:IDL:omg.org/CosTrading/{it}:1.0" for it in ("Lookup", "Register"))


def texts(key, operation, *words):
    """A request whose parameters are texts."""

    def body(it):
        for word in words:
            it.string(word)

    return request(key, operation, body)


def number(key, operation, value):
    return request(key, operation, lambda it: it.ulong(value))


def export(key, cost):
    def body(it):
        it.reference("IDL:Printer:1.0", f"new{cost}")
        it.string("Printer")
        it.ulong(1)
        it.number("Cost", cost)

    return request(key, "export", body)


def modify(offer, numbers, notes=()):
    """Nothing is deleted; the numbers and the texts are set."""

    def body(it):
        it.string(offer)
        it.ulong(0)
        it.ulong(len(numbers) + len(notes))
        for name, value in numbers:
            it.number(name, value)
        for name, value in notes:
            it.text(name, value)

    return request("A/R", "modify", body)


def add_type(name, interface, properties, supers):
    """The properties are ulongs, each with the number of its mode."""

    def body(it):
        it.string(name)
        it.string(interface)
        it.ulong(len(properties))
        for property_name, mode in properties:
            it.string(property_name)
            it.ulong(ULONG)
            it.ulong(mode)
        it.ulong(len(supers))
        for supertype in supers:
            it.string(supertype)

    return request("A/T", "add_type", body)


def resolve(*names):
    def body(it):
        it.ulong(len(names))
        for name in names:
            it.string(name)

    return request("A/R", "resolve", body)


def add_link(name, key):
    """A link to a trader of this group."""

    def body(it):
        it.string(name)
        it.reference("IDL:omg.org/CosTrading/Lookup:1.0", key)
        it.ulong(2)
        it.ulong(2)

    return request("A/K", "add_link", body)


def offers(count, trader=""):
    return "".join(f"offer Printer ref:IDL:Printer:1.0,h,9,{trader}p{it}\n" for it in range(1, count + 1))


def looks(ids, types=("Printer",), proxies=(), trader="A"):
    """What a trader holds: which offers, links and types, and each of these offers, proxy offers and types."""
    return [
        number(f"{trader}/A", "list_offers", 100),
        number(f"{trader}/A", "list_proxies", 100),
        number(f"{trader}/T", "list_types", 0),
        request(f"{trader}/K", "list_links", lambda it: None),
        *(texts(f"{trader}/R", "describe", str(it)) for it in ids),
        *(texts(f"{trader}/P", "describe_proxy", str(it)) for it in proxies),
        *(texts(f"{trader}/T", "fully_describe_type", it) for it in types),
    ]


PLAIN = Session(
    HEAD + "trader A\n" + PRINTER + offers(2),
    [query("", "", 0, 10)],
    [query("", "", 0, 10)] + looks([1, 2]),
)

MODIFY = Session(
    HEAD + "trader A\n" + PRINTER + "prop normal ulong Cost\nprop normal string Note\nprop readonly ulong Serial\n"
    + offers(1) + "with ulong Cost 1\nwith string Note ready\nwith ulong Serial 7\n",
    [
        modify("1", [("Cost", 2), ("Serial", 8)], [("Note", "refused")]),
        texts("A/R", "describe", "1"),
        modify("1", [("Cost", 3)], [("Note", "a text of some length")]),
        texts("A/R", "describe", "1"),
    ],
    looks([1]),
)

ITERATOR = Session(
    HEAD + "trader A\nset max_list 3\n" + PRINTER + offers(7),
    [
        query("", "", 0, 2),
        request("A/I/1", "max_left", lambda it: None),
        number("A/I/1", "next_n", 3),
        number("A/I/1", "next_n", 9),
        number("A/I/1", "next_n", 1),
        request("A/I/1", "destroy", lambda it: None),
        request("A/I/1", "max_left", lambda it: None),
        query("", "", 0, 9),
    ],
    looks([1, 7]),
)

IDS = Session(
    HEAD + "trader A\n" + PRINTER + offers(7)
    + "".join(f"proxy Printer {LOOKUP},h,9,A/L match TRUE\n" for _ in range(5)),
    [
        number("A/A", "list_offers", 3),
        number("A/A", "list_proxies", 2),
        number("A/I/1", "next_n", 2),
        number("A/I/2", "next_n", 9),
        request("A/I/2", "destroy", lambda it: None),
        number("A/I/1", "next_n", 100),
        request("A/I/1", "max_left", lambda it: None),
    ],
    looks([1, 7], proxies=[8, 12]),
)

RING = Session(
    HEAD
    + "".join(
        f"trader {name}\n{PRINTER}{offers(1, name)}link next {after} always always\n"
        for name, after in ("AB", "BC", "CA")
    ),
    [query("", "", 0, 10, numbers=[("hop_count", 5)], identifier=b"q")] * 2,
    [query("", "", 0, 10, key="B/L")] + looks([1]) + looks([1], trader="C"),
)


def with_proxy(target, more):
    """A trader whose proxy offer leads to this Lookup."""
    return (
        HEAD + "trader A\n" + PRINTER + "prop normal ulong Cost\nprop normal ulong Floor\n"
        + offers(1) + "with ulong Cost 4\nwith ulong Floor 1\n"
        + f"proxy Printer {LOOKUP},{target} match $* and Floor == $(Floor)\nwith ulong Cost 5\nwith ulong Floor 3\n"
        + more
    )


PROXY = Session(
    with_proxy(
        "h,9,B/L",
        "trader B\n" + PRINTER + "prop normal ulong Cost\nprop normal ulong Floor\n"
        + "".join(
            offers(1, f"b{floor}") + f"with ulong Cost 6\nwith ulong Floor {floor}\n" for floor in range(2, 5)
        ),
    ),
    [query("Cost < 10", "", 2, 10, identifier=b"q")],
    looks([1], proxies=[2]) + looks([1, 2, 3], trader="B"),
)

def outside(host):
    """The proxy offer leads to the peer."""
    return Session(
        with_proxy(f"{host},{{port}},X/L", ""),
        [query("Cost < 10", "", 2, 10, identifier=b"q")],
        looks([1], proxies=[2]),
        ("query",),
    )


TYPES = Session(
    HEAD + "trader A\ninterface IDL:Laser:1.0 IDL:Printer:1.0\n" + PRINTER + "prop normal ulong Cost\n",
    [
        add_type("Laser", "IDL:Laser:1.0", [("Toner", 0), ("Cost", 2)], ["Printer"]),
        add_type("Ink", "IDL:Printer:1.0", [("Cost", 0)], ["Printer"]),
        add_type("Laser", "IDL:Laser:1.0", [], []),
        texts("A/T", "describe_type", "Laser"),
        texts("A/T", "fully_describe_type", "Laser"),
        texts("A/T", "mask_type", "Ink"),
        texts("A/T", "remove_type", "Printer"),
        texts("A/T", "unmask_type", "Ink"),
        texts("A/T", "remove_type", "Ink"),
        number("A/T", "list_types", 0),
        request("A/T", "_get_incarnation", lambda it: None),
    ],
    looks([], ["Printer", "Laser", "Ink"]) + [request("A/T", "_get_incarnation", lambda it: None)],
)

# Every kind of line, and every class of call.
WHOLE = Session(
    HEAD
    + "seed " + "0123456789abcdef" * 4 + "\ntrader A\nstem 4102\nset max_list 50\nset def_hop_count 4\n"
    + "interface IDL:Laser:1.0 IDL:Printer:1.0\n" + PRINTER
    + "prop normal ulong Cost\nprop normal string Room\nprop normal seq:ulong Sizes\nprop normal ulong Queue\n"
    + "type Laser IDL:Laser:1.0 Printer\nprop readonly boolean Color\n"
    + offers(1) + "with ulong Cost 4\nwith string Room a room\nwith seq:ulong Sizes 3,4,5\n"
    + "dynamic ulong Queue ref:IDL:omg.org/CosTradingDynamic/DynamicPropEval:1.0,127.0.0.1,{port},evaluator\n"
    + "offer Laser ref:IDL:Laser:1.0,h,9,p2\nwith ulong Cost 7\nwith boolean Color TRUE\n"
    + f"proxy Printer {LOOKUP},h,9,B/L all Cost < 100\nwith ulong Cost 5\n"
    + "link b B always always\n"
    + f"link out {LOOKUP},127.0.0.1,{{port}},X/L {REGISTER},127.0.0.1,{{port}},X/R always always\n"
    + "trader B\n" + PRINTER + "prop normal ulong Cost\n" + offers(2, "b")
    + "with ulong Cost 9\nlink a A always always\n",
    [
        query("Cost < 50 and 'room' ~ Room or not exist Color", "min Cost", 2, 10, identifier=b"first"),
        export("A/R", 8),
        texts("A/R", "withdraw", "2"),
        modify("4", [("Cost", 30)]),
        resolve("b"),
        add_link("again", "B/L"),
        texts("A/K", "remove_link", "b"),
        texts("A/T", "mask_type", "Laser"),
        number("A/A", "set_max_list", 20),
        query("Cost > 1", "max Cost", 2, 2, identifier=b"second"),
        number("A/I/1", "next_n", 9),
        texts("A/L", "_is_a", "IDL:omg.org/CosTrading/Lookup:1.0"),
        texts("A/R", "withdraw_using_constraint", "Printer", "Cost == 30"),
    ],
    looks([1, 2, 4], ["Printer", "Laser"], [3]) + looks([1, 2], trader="B")
    + [request("A/A", "_get_max_list", lambda it: None), texts("A/K", "describe_link", "again")],
    ("query", "evalDP"),
)

SESSIONS = {
    "plain": PLAIN,
    "modify": MODIFY,
    "iterator": ITERATOR,
    "ids": IDS,
    "ring": RING,
    "proxy": PROXY,
    "outside": outside("127.0.0.1"),
    # The C library's look-up of a name has faults of its own where memory is refused.
    "named": outside("localhost"),
    "types": TYPES,
    "whole": WHOLE,
}
