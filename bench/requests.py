"""Requests to a trader's objects, as bytes, for the programs in this folder that measure (GIOP 1.0, in big order)."""

import struct

ULONG, OCTET, STRING, SEQUENCE = 5, 10, 18, 19


class Draft:
    """CDR in big order, counted from a message's start."""

    def __init__(self):
        self.bytes = bytearray()

    def aligned(self, size):
        self.bytes += bytes(-len(self.bytes) % size)

    def octet(self, value):
        self.bytes.append(value)

    def ulong(self, value):
        self.aligned(4)
        self.bytes += struct.pack(">I", value)

    def octets(self, value):
        self.ulong(len(value))
        self.bytes += value

    def string(self, value):
        self.octets(value.encode() + b"\0")

    def number(self, name, value):
        """A property that holds a ulong."""
        self.string(name)
        self.ulong(ULONG)
        self.ulong(value)

    def text(self, name, value):
        """A property that holds a string."""
        self.string(name)
        self.ulong(STRING)
        self.ulong(0)
        self.string(value)

    def octet_list(self, name, value):
        """A property or a policy that holds a sequence of octets."""
        self.string(name)
        self.ulong(SEQUENCE)
        self.octets(struct.pack(">III", 0, OCTET, 0))
        self.octets(value)

    def reference(self, name, key):
        profile = Draft()
        profile.bytes += b"\0\1\0"
        profile.string("h")
        profile.aligned(2)
        profile.bytes += struct.pack(">H", 9)
        profile.octets(key.encode())
        self.string(name)
        self.ulong(1)
        self.ulong(0)
        self.octets(profile.bytes)


def request(key, operation, body):
    it = Draft()
    it.bytes += b"GIOP\1\0\0\0\0\0\0\0"
    it.ulong(0)
    it.ulong(1)
    it.octet(1)
    it.octets(key.encode())
    it.string(operation)
    it.octets(b"")
    body(it)
    struct.pack_into(">I", it.bytes, 8, len(it.bytes) - 12)
    return bytes(it.bytes)


def query(constraint, preference, desired, how_many, service_type="Printer", numbers=(), key="A/L", identifier=None):
    """A query; each of the numbers is a policy with its name, and so is the identifier, where one is given."""

    def body(it):
        for word in (service_type, constraint, preference):
            it.string(word)
        it.ulong(len(numbers) + (identifier is not None))
        for name, value in numbers:
            it.number(name, value)
        if identifier is not None:
            it.octet_list("request_id", identifier)
        it.ulong(desired)
        it.ulong(how_many)

    return request(key, "query", body)


def properties(it, number):
    it.ulong(4)
    it.number("Cost", number % 50)
    it.text("Room", f"R{number}")
    it.number("Pages", 20)
    it.text("Kind", "laser")


def export(number):
    def body(it):
        it.reference("IDL:Printer:1.0", f"p{number}")
        it.string("Printer")
        properties(it, number)

    return request("A/R", "export", body)


def describe(number):
    return request("A/R", "describe", lambda it: it.string(str(number)))


def withdraw(number):
    return request("A/R", "withdraw", lambda it: it.string(str(number)))


def modify(number, cost):
    def body(it):
        it.string(str(number))
        it.ulong(0)
        it.ulong(1)
        it.number("Cost", cost)

    return request("A/R", "modify", body)


def next_n(number, count):
    return request(f"A/I/{number}", "next_n", lambda it: it.ulong(count))
