"""The servers of examples/site and their clients on hosts, for bench/site/run."""

import os
import re
import subprocess
import sys
import tempfile
import time

TOP = os.path.dirname(os.path.dirname(os.path.dirname(os.path.abspath(__file__))))
sys.path[:0] = [f"{TOP}/bench", f"{TOP}/bench/site"]
import servers  # noqa: E402
from hosts import Hosts, Program, whole  # noqa: E402

SITE = f"{TOP}/examples/site"
PORT, TUNNEL = 2809, 2811
HERE, THERE = "192.0.2.2", "198.51.100.2"
CLIENT, STRANGER = "203.0.113.2", "203.0.113.130"


def text_of(name):
    with open(f"{SITE}/{name}", encoding="utf-8") as it:
        return it.read()


def site():
    """The hosts, of which each knows the two servers by name."""
    return Site(
        here=("192.0.2.0/24", HERE, "192.0.2.1"),
        there=("198.51.100.0/24", THERE, "198.51.100.1"),
        client=("203.0.113.0/25", CLIENT, "203.0.113.1"),
        stranger=("203.0.113.128/25", STRANGER, "203.0.113.129"),
    )


class Site(Hosts):
    """Hosts that know each other's names."""

    def prepare(self, host):
        host.etc("hosts", f"127.0.0.1 localhost\n{HERE} here.example\n{THERE} there.example\n")


class Server(Program):
    """`tradesrv listen` on a host, over a file of this text, to which each start gives new stems."""

    def __init__(self, host, text, environment=(), make_stems=servers.with_stems):
        # (what the launcher says of a start isn't of interest here)
        super().__init__(host, "env", *environment, servers.PROGRAM, "listen", is_quiet=True)
        self.text, self.make_stems, self.folder, self.file = text, make_stems, None, None

    def start(self):
        with whole():
            if not self.folder:
                self.folder = tempfile.TemporaryDirectory()
                self.file = f"{self.folder.name}/it.trader"
                self.program.append(self.file)
        with open(self.file, "w", encoding="utf-8") as it:
            it.write(self.make_stems(self.text))
        super().start()
        if not self.listens(PORT):
            raise OSError(f"the server on {self.host.link} ended with status {self.process.returncode}")

    def restart(self):
        self.end()
        self.start()

    def __exit__(self, *_):
        with whole():
            super().__exit__()
            if self.folder:
                self.folder.cleanup()

    def memory(self, word="VmRSS"):
        """Bytes: VmRSS what it holds, VmHWM the most that it held."""
        with open(f"/proc/{self.process.pid}/status", encoding="ascii") as it:
            return 1024 * int(re.search(rf"{word}:\s+(\d+)", it.read())[1])


def here(hosts, environment=()):
    return Server(hosts.here, text_of("here.trader"), environment)


def there(hosts, environment=()):
    return Server(hosts.there, text_of("there.trader"), environment)


def keep_alive():
    """The words of the service's drop-in that set its environment."""
    return " ".join(re.findall(r"^Environment=(.*)$", text_of("keepalive.conf"), re.M)).split()


def set_sysctl(host):
    host.run("sysctl", "-q", "-p", f"{SITE}/sysctl.conf")


class Asked:
    """What a query over a connection of its own came to: how many offers, or the fault, and the seconds."""

    def __init__(self, host, seconds, message=servers.HERE, address=HERE):
        begin, self.offers, self.fault = time.monotonic(), None, None
        try:
            with host.connect(address, PORT, seconds) as client:
                self.offers = servers.asked(client, message)
        except (OSError, EOFError) as fault:
            self.fault = "no answer" if isinstance(fault, TimeoutError) else str(fault)
        self.spent = time.monotonic() - begin

    def __str__(self):
        what = f"{self.fault} within" if self.offers is None else f"{self.offers} offers in"
        return f"{what} {self.spent:.2f} s"


def stay(host, count):
    """So many clients that were answered and stay."""
    made = [host.connect(HERE, PORT, 20) for _ in range(count)]
    return made, sum(servers.asked(it, servers.HERE) == 3 for it in made)


def query_by_reference(hosts, file):
    """What the client's program prints of the reference that a server's file gives, and its status."""
    said = hosts.here.run(servers.PROGRAM, "check", file)
    lookup = re.search(r"^lookup (\S+)", said, re.M)[1]
    words = hosts.client.words(servers.CLIENT, "query", lookup, "Hotel", "Price < 200", "min Price")
    begin = time.monotonic()
    ran = subprocess.run(words, stdout=subprocess.PIPE, stderr=subprocess.DEVNULL, text=True, timeout=30, check=False)
    last = (ran.stdout.splitlines() or ["nothing"])[-1]
    return f"{last}, status {ran.returncode}, in {time.monotonic() - begin:.2f} s"
