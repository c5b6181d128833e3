"""Servers on loopback, their clients, and what the system tells of their sockets, for the programs in this folder."""

import collections
import os
import secrets
import signal
import socket
import subprocess
import sys
import tempfile
import threading
import time

import requests

TOP = os.path.dirname(os.path.dirname(os.path.abspath(__file__)))
PROGRAM = os.environ.get("TRADESRV", f"{TOP}/tradesrv")
CLIENT = os.environ.get("TRADECLI", f"{TOP}/tradecli")
ESTABLISHED, TIME_WAIT, CLOSE_WAIT = "01", "06", "08"
TICK = os.sysconf("SC_CLK_TCK")
# As long as a client waits for a reply, where nothing else is said.
PATIENCE = 20
# Queries for the hotels of examples/here.trader with there.trader (three offers) and of the latter (two).
HERE = requests.query("Price < 200", "min Price", 2, 10, "Hotel", key="Here/L")
THERE = requests.query("Price < 200", "min Price", 2, 10, "Hotel", key="There/L")


def free_ports(count):
    """So many ports that nobody listens at."""
    bound = [socket.socket() for _ in range(count)]
    for it in bound:
        it.bind(("127.0.0.1", 0))
    ports = [it.getsockname()[1] for it in bound]
    for it in bound:
        it.close()
    return ports


class Server:
    """`tradesrv listen` over a file that `text` gives anew for each start. It is ended with its block."""

    def __init__(self, port, text, before=(), host="127.0.0.1", program=PROGRAM):
        self.port, self.text, self.before, self.host, self.program = port, text, list(before), host, program
        self.folder = tempfile.TemporaryDirectory()
        self.process = None

    def __enter__(self):
        self.start()
        return self

    def __exit__(self, *_):
        self.end()
        self.folder.cleanup()

    def start(self):
        file = f"{self.folder.name}/it.trader"
        with open(file, "w", encoding="utf-8") as it:
            it.write(self.text())
        self.process = subprocess.Popen(self.before + [self.program, "listen", file])
        for _ in range(600):
            try:
                socket.create_connection((self.host, self.port), 5).close()
                # Until that session has ended, so that 64 others find a thread each.
                time.sleep(0.2)
                return
            except OSError:
                time.sleep(0.1)
            if self.process.poll() is not None:
                break
        self.end()
        sys.exit(f"the server at port {self.port} can't be reached")

    def end(self):
        self.process.kill()
        self.process.wait()

    def restart(self):
        self.end()
        self.start()

    def has_ended(self):
        return self.process.poll() is not None

    def processor(self):
        """The seconds of processor time that it took, in its own code and in the system's."""
        with open(f"/proc/{self.process.pid}/stat", encoding="utf-8") as it:
            words = it.read().rpartition(")")[2].split()
        return sum(int(word) for word in words[11:13]) / TICK


def with_stems(text):
    """A file's text, in which each trader has a stem that no other start has."""
    lines = []
    for line in text.splitlines():
        lines.append(line)
        if line.startswith("trader "):
            lines.append(f"stem {(line.split()[1].encode() + secrets.token_bytes(8)).hex()}")
    return "\n".join(lines) + "\n"


def example(name, here, there):
    """What gives the text of examples/NAME.trader, at these ports in place of 2809 and 2810."""

    def text():
        with open(f"{TOP}/examples/{name}.trader", encoding="utf-8") as it:
            return with_stems(it.read().replace("2809", str(here)).replace("2810", str(there)))

    return text


def linked(program=PROGRAM):
    """The servers of examples/here.trader and there.trader, of which the first has a link to the second."""
    here, there = free_ports(2)
    texts = [example(name, here, there) for name in ("here", "there")]
    return Server(here, texts[0], program=program), Server(there, texts[1], program=program)


def link_to(name, trader, port, host="127.0.0.1"):
    """The line of a link to a trader outside, which is always followed."""
    kinds = ("Lookup", "Register")
    objects = [f"ref:IDL:omg.org/CosTrading/{kind}:1.0,{host},{port},{trader}/{kind[0]}" for kind in kinds]
    return f"link {name} {' '.join(objects)} always always\n"


def connect(port, seconds=PATIENCE):
    return socket.create_connection(("127.0.0.1", port), seconds)


def message_from(client):
    """A whole message. The connection's time limit is that of each piece."""
    taken = b""
    while len(taken) < 12 or len(taken) < 12 + int.from_bytes(taken[8:12], "big"):
        piece = client.recv(65536)
        if not piece:
            raise EOFError(f"the end behind {len(taken)} bytes of a message")
        taken += piece
    return taken


def offers_in(reply):
    """How many offers a query's reply has; none where it is another message or tells an exception."""
    if reply[7] != 1 or reply[20:24] != bytes(4):
        return None
    return int.from_bytes(reply[24:28], "big")


def asked(client, message):
    """How many offers came for this query."""
    client.sendall(message)
    return offers_in(message_from(client))


def asked_at(port, message, seconds=PATIENCE):
    """The same over a connection of its own, and the seconds that it took."""
    begin = time.monotonic()
    with connect(port, seconds) as client:
        return asked(client, message), time.monotonic() - begin


def found(port, message, seconds=PATIENCE):
    """How many offers came for this query over a connection of its own; none where none did in time."""
    try:
        return asked_at(port, message, seconds)[0]
    except (OSError, EOFError):
        return None


def answered_together(port, message, count, seconds):
    """So many clients that connect and ask at once, and stay until all are through: what each got."""
    got = [None] * count
    last = threading.Barrier(count)

    def ask(place):
        try:
            with connect(port, seconds) as client:
                got[place] = asked(client, message)
                last.wait(seconds)
        except (OSError, EOFError, threading.BrokenBarrierError):
            pass

    run_together([lambda place=place: ask(place) for place in range(count)])
    return got


def direct(port):
    """How many of three clients that ask There at once, ten times, got its two offers, and the longest they took."""
    right, longest = 0, 0.0
    for _ in range(10):
        begin = time.monotonic()
        got = answered_together(port, THERE, 3, 3)
        longest = max(longest, time.monotonic() - begin)
        right += got.count(2)
        if None in got:
            break
    return right, longest


def run_together(calls):
    """Each call on a thread of its own, until all are through."""
    threads = [threading.Thread(target=call, daemon=True) for call in calls]
    for thread in threads:
        thread.start()
    for thread in threads:
        thread.join()


def sockets(states, port, either=False, process="self"):
    """How many TCP sockets in these states have this port at their own side, or at either side."""
    count = 0
    with open(f"/proc/{process}/net/tcp", encoding="utf-8") as table:
        next(table)
        for row in table:
            words = row.split()
            ports = [int(words[place].rpartition(":")[2], 16) for place in ((1, 2) if either else (1,))]
            count += words[3] in states and port in ports
    return count


def held_at(port, process="self"):
    """How many connections a server at this port has, those included whose client has ended them."""
    return sockets({ESTABLISHED, CLOSE_WAIT}, port, process=process)


def waiting_at(port, process="self"):
    """How many connections of this port are in TIME-WAIT."""
    return sockets({TIME_WAIT}, port, True, process)


def peer(backlog=128):
    """A listener that a script plays a peer with."""
    it = socket.socket()
    it.bind(("127.0.0.1", 0))
    it.listen(backlog)
    return it


# The seconds, how many replies were as the first, how many weren't, how many connections got none in time, the seconds
# of the slowest reply, and how many offers the first has.
Compared = collections.namedtuple("Compared", "spent same other lost slowest offers")


class Load:
    """bench/listen/load.c, built into a folder that is there as long as the block."""

    def __enter__(self):
        self.folder = tempfile.TemporaryDirectory()
        self.program = f"{self.folder.name}/load"
        subprocess.run(["cc", "-O2", "-pthread", "-o", self.program, f"{TOP}/bench/listen/load.c"], check=True)
        return self

    def __exit__(self, *_):
        self.folder.cleanup()

    def file(self, name, content):
        with open(f"{self.folder.name}/{name}", "wb") as it:
            it.write(content)
        return it.name

    def compare(self, port, connections, seconds, count, message):
        """Asks this until so many replies came or so many seconds have passed, over so many connections. The reply that
        comes first, once it is asked for alone, is the one that all are compared with."""
        with connect(port) as client:
            client.sendall(message)
            reply = message_from(client)
        words = [str(it) for it in (port, connections, seconds, count)]
        words = [self.program, "compare", *words, self.file("request", message), self.file("reply", reply)]
        ran = subprocess.run(words, stdout=subprocess.PIPE, check=True, timeout=seconds + 60)
        spent, same, other, lost, slowest = [float(it) for it in ran.stdout.split()]
        return Compared(spent, int(same), int(other), int(lost), slowest / 1000, offers_in(reply))


def tell(name, seen, limit, good):
    """A line of what was seen, beside the limit, and whether it is kept."""
    print(f"{'kept  ' if good else 'MISSED'}  {name}: {seen} (limit: {limit})", flush=True)
    return good


def build(program, *words):
    """Has a program of this repository built, by words that do nothing. The first time it takes long, as it tells."""
    if program.startswith(TOP):
        subprocess.run([program, *words], stdout=subprocess.DEVNULL, check=False)


def build_server():
    build(PROGRAM, "check", f"{TOP}/examples/there.trader")


def main(runs, words):
    """Does the runs of these names, all where none is given. The status is 1 where a limit is missed."""
    if unknown := [word for word in words if word not in runs]:
        sys.exit(f"no run is called {unknown[0]}; there are {', '.join(runs)}")
    # So that a script that is ended ends its servers.
    signal.signal(signal.SIGTERM, lambda *_: sys.exit(1))
    build_server()
    good = []
    for name in words or runs:
        try:
            good.append(runs[name]())
        except (OSError, EOFError) as fault:
            good.append(tell(name, f"{type(fault).__name__} {fault}", "that it goes through", False))
    sys.exit(0 if all(good) else 1)
