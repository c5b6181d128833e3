"""What scripts know of the traders of a server's file: by `tradesrv check FILE`, and by the file's lines."""

import collections
import os
import re
import subprocess

TOP = os.path.dirname(os.path.dirname(os.path.abspath(__file__)))


class Refused(Exception):
    """Nothing can be drawn; the words tell why, and the number is the status."""

    def __init__(self, why, status=1):
        super().__init__(why)
        self.status = status


class Trader:
    """A trader, with the offers of each type counted and the arrows in the order of the file."""

    def __init__(self, name, counts, lookup):
        self.name, self.counts, self.lookup = name, counts, lookup
        self.types, self.attributes, self.arrows = collections.Counter(), {}, []

    def told(self):
        """What the lines tell of the numbers that the program prints."""
        links = sum(it.kind == "link" for it in self.arrows)
        return {"types": len(self.types), "offers": sum(self.types.values()), "links": links}


# Where something leads: the target is a trader's name, or a reference outside the file. The words are those of the line
# behind its first.
Arrow = collections.namedtuple("Arrow", "kind name target words")
Reference = collections.namedtuple("Reference", "host port key")
NOWHERE = Reference("", 0, "")


class Octets:
    """Reads CDR from a place on. A ValueError tells that there is too little of it."""

    def __init__(self, octets, order, at=0):
        self.octets, self.order, self.at = octets, order, at

    def take(self, size):
        self.at += size
        if self.at > len(self.octets):
            raise ValueError
        return self.octets[self.at - size : self.at]

    def number(self, size, signed=False):
        self.take(-self.at % size)
        return int.from_bytes(self.take(size), self.order, signed=signed)

    def sequence(self):
        return self.take(self.number(4))

    def string(self):
        return text_of(self.sequence()[:-1])

    def reference(self):
        """The host, port and key of the first IIOP profile, or NOWHERE where there is none."""
        self.sequence()
        profiles = [(self.number(4), self.sequence()) for _ in range(self.number(4))]
        for tag, octets in profiles:
            if tag == 0:
                profile = encapsulated(octets)
                profile.take(2)
                host, port = profile.string(), profile.number(2)
                return Reference(host, port, text_of(profile.sequence()))
        return NOWHERE


def encapsulated(octets):
    """Reads an encapsulation, which begins with its order."""
    return Octets(octets, "little" if octets[:1] == b"\1" else "big", 1)


def text_of(octets):
    return octets.decode("utf-8", "backslashreplace")


def reference_of(text):
    """The host, port and key that a reference leads to, as it stands in a file."""
    if text.startswith("ref:"):
        _, host, port, key = text.rsplit(",", 3)
        return Reference(host, int(port), key)
    return encapsulated(bytes.fromhex(text[len("IOR:") :])).reference()


def checked(file):
    """The traders of a file by their names, as the program tells them."""
    program = os.environ.get("TRADESRV") or f"{TOP}/tradesrv"
    ran = subprocess.run([program, "check", file], stdin=subprocess.DEVNULL, stdout=subprocess.PIPE, check=False)
    if ran.returncode:
        # (the program has said why)
        raise Refused("", ran.returncode if ran.returncode > 0 else 1)
    traders = {}
    for line in text_of(ran.stdout).splitlines():
        words = line.split(" ")
        if words[0] == "trader":
            name, counts = words[1], dict(zip(words[2::2], map(int, words[3::2])))
        elif words[0] == "lookup":
            traders[name] = Trader(name, counts, reference_of(words[1]))
    return traders


def leads_to(target, traders):
    """The name of the trader whose Lookup a reference leads to, or the reference where it leads outside."""
    inside = [it.name for it in traders.values() if it.lookup == target]
    return inside[0] if inside else target


def read_line(words, line, trader, traders):
    """Takes what a line tells of a trader."""
    kind, rest = words[0], words[1:]
    if kind == "type":
        trader.types[rest[0]] += 0
    elif kind == "set":
        trader.attributes[rest[0]] = rest[1]
    elif kind == "offer":
        trader.types[rest[0]] += 1
    elif kind == "proxy":
        recipe = re.split("[ \t]+", line.strip(" \t"), maxsplit=4)[4:]
        trader.types[rest[0]] += 1
        target = leads_to(reference_of(rest[1]), traders)
        trader.arrows.append(Arrow("proxy offer", "", target, [*rest[:3], *recipe]))
    elif kind == "dynamic":
        trader.arrows.append(Arrow("dynamic property", "", reference_of(rest[2]), rest))
    elif kind == "link":
        is_name = rest[1] in traders and len(rest) == 4
        target = rest[1] if is_name else leads_to(reference_of(rest[1]), traders)
        trader.arrows.append(Arrow("link", rest[0], target, rest))


def read(file, traders):
    """Takes what the lines of a file tell of its traders, and gives its address.

    A ValueError or an IndexError tells that these aren't the lines that the program took.
    """
    with open(file, "rb") as it:
        lines = [text_of(line.rstrip(b"\n").removesuffix(b"\r")) for line in it]
    address, trader = [], None
    for line in lines:
        words = [] if line.startswith("#") else [it for it in re.split("[ \t]", line) if it]
        if words[:1] == ["address"]:
            address = words[1:]
        elif words[:1] == ["trader"]:
            trader = traders.get(words[1])
        elif words and trader:
            read_line(words, line, trader, traders)
    if any(it.told() != it.counts for it in traders.values()):
        raise ValueError
    return address


def opened(file):
    """The address and the traders of a file."""
    traders = checked(file)
    try:
        return read(file, traders), traders
    except (IndexError, ValueError):
        raise Refused(f"{file} was changed while it was read") from None
