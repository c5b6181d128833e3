"""Hosts in network namespaces, joined by a router between them, for bench/site/run."""

import contextlib
import ctypes
import functools
import os
import shutil
import signal
import socket
import subprocess
import threading
import time

# The signals that end a run; SIGALRM is its own, behind its limit.
ENDING = (signal.SIGTERM, signal.SIGHUP, signal.SIGINT, signal.SIGALRM)
CLONE_NEWNET = 0x40000000
LIBC = ctypes.CDLL(None, use_errno=True)
# Where `ip netns exec` finds what it puts in place of files of /etc.
ETC = "/etc/netns"


@contextlib.contextmanager
def etc_folder():
    """Behind the block the folder is there only where it was before."""
    was_there = os.path.isdir(ETC)
    try:
        yield
    finally:
        if not was_there:
            with contextlib.suppress(OSError):
                os.rmdir(ETC)


@contextlib.contextmanager
def whole():
    """Signals that end this process wait until the block is through."""
    before = signal.pthread_sigmask(signal.SIG_BLOCK, ENDING)
    try:
        yield
    finally:
        signal.pthread_sigmask(signal.SIG_SETMASK, before)


def run(*words):
    """What the program prints; what it said, as a fault, where it failed."""
    # (in a session of its own, so that a signal to all of this one doesn't end it halfway)
    with whole():
        ran = subprocess.run(words, capture_output=True, text=True, timeout=60, check=False, start_new_session=True)
    if ran.returncode:
        raise OSError(f"{' '.join(words)}: {ran.stderr.strip()}")
    return ran.stdout


class Host:
    """A host with one interface and one address; its router has the address of the same network that ends with 1."""

    def __init__(self, space, link, network="", address="", router=""):
        self.space, self.link, self.network, self.address, self.router = space, link, network, address, router

    def make(self):
        run("ip", "netns", "add", self.space)
        self.ip("link", "set", "lo", "up")

    def join(self, net):
        """Joins it to the router's namespace."""
        run("ip", "-n", net, "link", "add", self.link, "type", "veth", "peer", "name", "net", "netns", self.space)
        bits = self.network.partition("/")[2]
        run("ip", "-n", net, "address", "add", f"{self.router}/{bits}", "dev", self.link)
        run("ip", "-n", net, "link", "set", self.link, "up")
        self.ip("address", "add", f"{self.address}/{bits}", "dev", "net")
        self.ip("link", "set", "net", "up")
        self.ip("route", "add", "default", "via", self.router)

    def ip(self, *words):
        return run("ip", "-n", self.space, *words)

    def words(self, *words):
        """The words that run a program there, with the files of `etc` in place."""
        return ["ip", "netns", "exec", self.space, *words]

    def run(self, *words):
        return run(*self.words(*words))

    def etc(self, name, text):
        """What the host's programs read as this file of /etc. A folder must stand there already."""
        file = f"{ETC}/{self.space}/{name}"
        os.makedirs(os.path.dirname(file), exist_ok=True)
        with open(file, "w", encoding="utf-8") as it:
            os.chmod(file, 0o600 if name.endswith(".psk") else 0o644)
            it.write(text)

    @contextlib.contextmanager
    def inside(self):
        """Meanwhile the sockets that this thread makes are the host's, and so are the programs that it starts."""
        with open("/proc/thread-self/ns/net", "rb") as before, open(f"/run/netns/{self.space}", "rb") as there:
            enter(there)
            try:
                yield
            finally:
                enter(before)

    def connect(self, address, port, seconds):
        with self.inside():
            return socket.create_connection((address, port), seconds)

    def listen(self, port):
        with self.inside():
            return socket.create_server((self.address, port), backlog=64)


def enter(space):
    if LIBC.setns(space.fileno(), CLONE_NEWNET):
        raise OSError(ctypes.get_errno(), "setns")


class Hosts:
    """The hosts of these names and networks, as attributes, and the router `net`, as long as the block."""

    def __init__(self, **networks):
        self.prefix = f"site{os.getpid()}"
        self.net = f"{self.prefix}-net"
        self.all = [Host(f"{self.prefix}-{name}", name, *words) for name, words in networks.items()]
        for host in self.all:
            setattr(self, host.link, host)

    def __enter__(self):
        try:
            run("ip", "netns", "add", self.net)
            run("ip", "-n", self.net, "link", "set", "lo", "up")
            run("ip", "netns", "exec", self.net, "sysctl", "-q", "-w", "net.ipv4.ip_forward=1")
            for host in self.all:
                host.make()
                host.join(self.net)
                self.prepare(host)
            self.wait_until_joined()
        except BaseException:
            self.__exit__()
            raise
        return self

    def __exit__(self, *_):
        with whole():
            self.remove()

    def prepare(self, host):
        """What is done with each host once it is joined."""

    def wait_until_joined(self):
        """A link takes a moment until it carries."""
        for host in self.all:
            for _ in range(100):
                if "state UP" in host.ip("link", "show", "net"):
                    break
                time.sleep(0.05)

    def remove(self):
        for space in [it.space for it in self.all] + [self.net]:
            if os.path.exists(f"/run/netns/{space}"):
                run("ip", "netns", "delete", space)
            shutil.rmtree(f"{ETC}/{space}", ignore_errors=True)

    def lose(self, host):
        """Nothing comes to the host any more, and nobody is told so."""
        run("ip", "-n", self.net, "route", "add", "blackhole", f"{host.address}/32")

    def cut(self, host):
        """Nothing goes from it any more either."""
        self.lose(host)
        host.ip("link", "set", "net", "down")


class Program:
    """A program on a host, which is ended with its block."""

    def __init__(self, host, *words, is_quiet=False):
        self.host, self.program, self.is_quiet = host, list(words), is_quiet
        self.process = None

    def __enter__(self):
        try:
            self.start()
        except BaseException:
            self.__exit__()
            raise
        return self

    def __exit__(self, *_):
        self.end()

    def start(self):
        how = {"stdin": subprocess.DEVNULL, "stderr": subprocess.DEVNULL if self.is_quiet else None}
        with whole():
            unblock = functools.partial(signal.pthread_sigmask, signal.SIG_UNBLOCK, ENDING)
            words = self.host.words(*self.program)
            self.process = subprocess.Popen(words, start_new_session=True, preexec_fn=unblock, **how)

    def end(self):
        with whole():
            if self.process:
                self.process.kill()
                self.process.wait()

    def listens(self, port, seconds=60):
        """Waits until it does, or has ended, and tells which."""
        for _ in range(seconds * 20):
            if self.process.poll() is not None:
                return False
            # (of one that is ending there is nothing to be seen)
            with contextlib.suppress(OSError):
                if any(row[9] in self.own_sockets() for row in self.sockets(port, "0A")):
                    return True
            time.sleep(0.05)
        raise TimeoutError(f"nobody listens at port {port} of {self.host.link}")

    def own_sockets(self):
        """The numbers of its sockets, where its host has those of others too."""
        own, folder = set(), f"/proc/{self.process.pid}/fd"
        for it in os.listdir(folder):
            with contextlib.suppress(OSError):
                own.add(os.readlink(f"{folder}/{it}").removeprefix("socket:[").rstrip("]"))
        return own

    def sockets(self, port, *states):
        """The rows of the system's table of its host's sockets in these states, with this port at their own side."""
        rows = []
        with open(f"/proc/{self.process.pid}/net/tcp", encoding="ascii") as table:
            next(table)
            for row in table:
                words = row.split()
                if words[3] in states and (port is None or words[1].endswith(f":{port:04X}")):
                    rows.append(words)
        return rows

    def sessions(self):
        """The connections that it has accepted and not closed."""
        states = {row[9]: row[3] for row in self.sockets(None, "01", "08")}
        return [it for it in self.own_sockets() if it in states]

    def held(self, port):
        """How many connections its host has at this port, those that wait to be accepted and ended ones included."""
        return len(self.sockets(port, "01", "08"))


class Hearing:
    """Hears on the router all that goes through it, as long as the block: `found` has which of these words came."""

    def __init__(self, hosts, *sought):
        self.hosts, self.sought, self.found = hosts, sought, set()

    def __enter__(self):
        with Host(self.hosts.net, "net").inside():
            self.socket = socket.socket(socket.AF_PACKET, socket.SOCK_RAW, socket.htons(3))
        self.socket.settimeout(0.1)
        self.over = threading.Event()
        self.thread = threading.Thread(target=self.listen, daemon=True)
        self.thread.start()
        return self

    def listen(self):
        while not self.over.is_set():
            try:
                packet = self.socket.recv(65536)
            except TimeoutError:
                continue
            self.found.update(it for it in self.sought if it in packet)

    def __exit__(self, *_):
        time.sleep(0.2)
        self.over.set()
        self.thread.join()
        self.socket.close()
