"""A network for hosts/tests/apply: clock.c in namespaces, on links that are bridges, a manager's end whose frames this process moves
(apply_link.py), and an observer beside each clock. It needs root and /dev/net/tun."""
import fcntl
import os
import pty
import re
import select
import socket
import struct
import subprocess
import threading
import time

from apply_link import Middle, request_of
from trying import CLOCK, HOME, MANAGE, inside, run

MANAGER, OTHER = "000000fffe000010/1", "0a0000fffe000099/1"
MANAGERS_STATION = "02:00:00:00:00:10"
TUNSETIFF, IFF_TAP, IFF_NO_PI = 0x400454CA, 2, 0x1000
ETH_P_IP = 0x0800
MOST_WAITING = 1 << 22              # octets in a socket of an observer
ANSWERED_NEW = "5"
NUMBERED = "5678"                   # answers of a clock to what a manager of it asks it by itself


def within(namespace):
    """The words before those of a program that runs there. Unlike `ip netns exec` it mounts nothing, which takes seconds on a busy machine."""
    return ["nsenter", f"--net=/var/run/netns/{namespace}"]


def environment(state):
    """That of a run with this state folder, which finds the program `ptpm` of this repository if there is no other."""
    return {**os.environ, "XDG_STATE_HOME": state, "PATH": os.environ["PATH"] + ":" + os.path.dirname(HOME)}


def must(*words):
    done = run(*words)
    if done.returncode:
        raise OSError(f"{' '.join(words)}: {done.stderr}")


def tap(name, namespace):
    device = os.open("/dev/net/tun", os.O_RDWR)
    fcntl.ioctl(device, TUNSETIFF, struct.pack("16sH", name.encode(), IFF_TAP | IFF_NO_PI))
    must("ip", "link", "set", name, "netns", namespace)
    return device


class Clock:
    """A clock as a case describes it, and its process."""

    def __init__(self, name, identity, ports=1, has_rights=True, slaves=()):
        self.name, self.identity, self.ports, self.has_rights, self.slaves = name, identity, ports, has_rights, slaves
        self.process = self.log = self.namespace = None

    def answers(self):
        """The answers to what a manager asked this clock by itself, and how many octets each of these requests had."""
        with open(self.log) as log:
            lines = [re.match(r"port 1, (\d+) octets: (\d+) ", line) for line in log]
        return [(found[2], int(found[1])) for found in lines if found and found[2] in NUMBERED]


class Network:
    """These clocks. A link is a list of ends, `a.1` for a port and `m` for the manager; without links all are on one."""

    def __init__(self, work, clocks, links=None, troubles=None, seed=0):
        self.work, self.clocks = work, {clock.name: clock for clock in clocks}
        self.links = links or [["m"] + [f"{clock.name}.1" for clock in clocks]]
        self.lead = f"ptpm-apply-{os.getpid()}"
        self.middle = self.observer = None
        self.hub, self.near, self.beside = (f"{self.lead}-{end}" for end in ("hub", "m", "o"))
        os.makedirs(work, exist_ok=True)
        try:
            self.build(troubles, seed)
        except BaseException:
            self.end()
            raise

    def build(self, troubles, seed):
        for clock in self.clocks.values():
            clock.namespace = f"{self.lead}-{clock.name}"
        for name in [self.hub, self.near, self.beside] + [clock.namespace for clock in self.clocks.values()]:
            must("ip", "netns", "add", name)
            must("ip", "-n", name, "link", "set", "lo", "up")
        for number in range(len(self.links)):
            must("ip", "-n", self.hub, "link", "add", f"link{number}", "type", "bridge", "mcast_snooping", "0")
            must("ip", "-n", self.hub, "link", "set", f"link{number}", "up")
        self.connect_manager(troubles, seed)
        self.connect(self.beside, "e1", "other", 0, 99)
        for number, clock in enumerate(self.clocks.values()):
            for port in range(1, clock.ports + 1):
                self.connect_port(clock, port, number)
        self.observer = Observer({clock.name: clock.namespace for clock in self.clocks.values()}, "e1")
        for clock in self.clocks.values():
            self.start(clock)

    def connect_manager(self, troubles, seed):
        near, far = f"pn{os.getpid()}", f"pf{os.getpid()}"
        ends = tap(near, self.near), tap(far, self.hub)
        must("ip", "-n", self.near, "link", "set", near, "name", "e1", "address", MANAGERS_STATION)
        must("ip", "-n", self.near, "addr", "add", "10.9.0.10/24", "dev", "e1")
        self.link_manager("up")
        must("ip", "-n", self.hub, "link", "set", far, "master", "link0", "up")
        self.middle = Middle(*ends, troubles, seed)
        self.middle.start()

    def link_manager(self, state, *more):
        """Its end goes up or down."""
        must("ip", "-n", self.near, "link", "set", "e1", state, *more)
        if state == "up":
            must("ip", "-n", self.near, "route", "add", "224.0.0.0/4", "dev", "e1")

    def connect(self, namespace, device, name, link, address):
        """A device of a namespace, at a link or, if that is None, at nothing."""
        must("ip", "link", "add", device, "netns", namespace, "type", "veth", "peer", "name", name, "netns", self.hub)
        must("ip", "-n", namespace, "link", "set", device, "up")
        must("ip", "-n", namespace, "addr", "add", f"10.9.{99 if link is None else link}.{address}/24", "dev", device)
        must("ip", "-n", self.hub, "link", "set", name, *(("master", f"link{link}") if link is not None else ()), "up")

    def connect_port(self, clock, port, number):
        end = f"{clock.name}.{port}"
        link = next((place for place, ends in enumerate(self.links) if end in ends), None)
        self.connect(clock.namespace, f"e{port}", f"v{number}p{port}", link, 20 + 10 * number + port)

    def start(self, clock, *words):
        """Starts its process, with these words too, on the state that it has."""
        lead = os.path.join(self.work, clock.name)
        clock.log = lead + ".log"
        with open(lead + ".observed", "w") as observed:
            observed.writelines(f"port {port} state 9\n" for port in clock.slaves)
        managers = ["-m", OTHER] + (["-m", MANAGER] if clock.has_rights else [])
        with open(clock.log, "a") as log:
            before = log.tell()
            clock.process = subprocess.Popen(
                [*within(clock.namespace), CLOCK, "-v", "--user", "root", "-s", lead + ".state", "-o", lead + ".observed", *managers, *words, clock.identity]
                + [f"e{port}" for port in range(1, clock.ports + 1)], stdout=log, stderr=log)
        said = ""
        while "managers" not in said and "1 manager" not in said:
            if clock.process.poll() is not None:
                raise OSError(said)
            time.sleep(0.01)
            with open(clock.log) as log:
                log.seek(before)
                said = log.read()

    def crash(self, clock, *words):
        """It is killed, and started again on the state that it saved."""
        clock.process.kill()
        clock.process.wait()
        self.start(clock, *words)

    def words(self, *words, namespace=None):
        """The command line of the manager's program, there or at another end."""
        return [*within(namespace or self.near), MANAGE, "-i", "e1", *words]

    def environment(self, state="state"):
        return environment(os.path.join(self.work, state))

    def manage(self, *words, state="state", namespace=None, **more):
        """A run of the manager's program."""
        return run(*self.words(*words, namespace=namespace), env=self.environment(state), **more)

    def begin(self, *words, **variables):
        """A run that goes on, with these variables of its environment."""
        return subprocess.Popen(self.words(*words), stdout=subprocess.PIPE, stderr=subprocess.PIPE, text=True,
                                env={**self.environment(), **variables})

    def manage_at_terminal(self, *words):
        """Such a run whose standard error is a terminal: its status, and what is shown there."""
        ours, theirs = pty.openpty()
        process = subprocess.Popen(self.words(*words), stdout=subprocess.DEVNULL, stderr=theirs, env=self.environment())
        os.close(theirs)
        shown = b""
        try:
            while octets := os.read(ours, 65536):
                shown += octets
        except OSError:                     # its end has no reader any more
            pass
        os.close(ours)
        return process.wait(60), shown.decode()

    def target(self, name, number):
        """A clock, or one of its ports if the number is not 0."""
        return self.clocks[name].identity + (f"/{number}" if number else "")

    def set(self, name, number, *words):
        """Another manager has the clock carry a SET out."""
        done = self.manage("-m", OTHER, "-w", "10", "-b", "7", "--target", self.target(name, number), "set", *words, state="others",
                           namespace=self.beside)
        if done.returncode:
            raise OSError(f"{name} {words}: {done.stdout}{done.stderr}")

    def get(self, name, number, id):
        """What the clock has, or None if it answers nothing there."""
        done = self.manage("-a", "3", "-b", "7", "--target", self.target(name, number), "get", id, namespace=self.beside)
        return ", ".join(done.stdout.splitlines()) if done.returncode == 0 else None

    def end(self):
        for thread in (self.middle, self.observer):
            if thread is not None:
                thread.end()
        for clock in self.clocks.values():
            if clock.process is not None:
                clock.process.kill()
                clock.process.wait()
        for name in [self.hub, self.near, self.beside] + [clock.namespace for clock in self.clocks.values() if clock.namespace]:
            run("ip", "netns", "del", name)


def listen(device):
    """A socket that gets each frame that comes in there, and none that goes out."""
    opened = socket.socket(socket.AF_PACKET, socket.SOCK_RAW, socket.htons(ETH_P_IP))
    opened.setsockopt(socket.SOL_SOCKET, socket.SO_RCVBUF, MOST_WAITING)
    opened.bind((device, ETH_P_IP))
    return opened


class Observer(threading.Thread):
    """Of each clock's name, the requests that came in at a device of its namespace, in order."""

    def __init__(self, namespaces, device):
        super().__init__(daemon=True)
        self.namespaces, self.device = namespaces, device
        self.seen = {name: [] for name in namespaces}
        self.is_ready, self.is_over = threading.Event(), False
        self.start()
        if not self.is_ready.wait(60):
            raise OSError("no observer has started")

    def run(self):
        sockets = {}
        for name, namespace in self.namespaces.items():
            with inside(namespace):
                sockets[listen(self.device)] = name
        self.is_ready.set()
        while not self.is_over:
            for ready in select.select(list(sockets), [], [], 0.1)[0]:
                request = request_of(ready.recv(2048))
                if request is not None:
                    self.seen[sockets[ready]].append(request)
        for opened in sockets:
            opened.close()

    def end(self):
        self.is_over = True
        self.join()
