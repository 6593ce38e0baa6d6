"""What the trials in Python share: where the programs are, one that is run, a wait, network namespaces and a link between two, and the count
of what holds."""
import contextlib
import ctypes
import os
import subprocess
import threading
import time
import zlib

HOME = os.path.dirname(os.path.dirname(os.path.abspath(__file__)))
CLOCK, MANAGE = (os.path.join(HOME, name) for name in ("clock", "manage"))
passed, failed = 0, 0
counting = threading.Lock()


def check(what, holds):
    global passed, failed
    with counting:
        passed, failed = passed + bool(holds), failed + (not holds)
        if not holds:
            print("failed:", what, flush=True)


def print_checks(name):
    """The last line of a trial, and its status."""
    print(f"{name}: {passed} passed, {failed} failed")
    return failed > 0


def run(*words, **more):
    return subprocess.run(words, stdout=subprocess.PIPE, stderr=subprocess.PIPE, text=True, timeout=120, **more)


def wait_until(holds, most=30):
    """Whether it comes to hold in so many seconds."""
    end = time.monotonic() + most
    while not holds() and time.monotonic() < end:
        time.sleep(0.05)
    return holds()


def sealed(image, saves=1):
    """What a file has that was saved so often."""
    octets = image + b"ptps" + saves.to_bytes(8, "big")
    return octets + zlib.crc32(octets).to_bytes(4, "big")


@contextlib.contextmanager
def inside(namespace):
    """Meanwhile this thread is in that network namespace, in which its sockets then stay."""
    enter, new_network = ctypes.CDLL(None, use_errno=True).setns, 0x40000000
    with open("/proc/thread-self/ns/net") as own, open(f"/run/netns/{namespace}") as there:
        if enter(there.fileno(), new_network):
            raise OSError(ctypes.get_errno(), namespace)
        try:
            yield
        finally:
            enter(own.fileno(), new_network)


def bring_up(name, device, station, address):
    """A device of a network namespace, with its station and its address of IPv4."""
    run("ip", "-n", name, "link", "set", device, "address", station, "up")
    run("ip", "-n", name, "addr", "add", address + "/24", "dev", device)
    run("ip", "-n", name, "route", "add", "224.0.0.0/4", "dev", device)


class Link:
    """The link of link.c with these options, near0 and far0 if it is the first, between two namespaces that are there."""

    def __init__(self, near, far, *options, number=0):
        ends = [(near, f"near{number}", f"1{number}"), (far, f"far{number}", f"2{number}")]
        self.process = subprocess.Popen([os.path.join(HOME, "link"), *options, *(f"{name}/{device}" for name, device, _ in ends)],
                                        stdout=subprocess.PIPE, text=True)
        for name, device, end in ends:
            while run("ip", "-n", name, "link", "show", device).returncode != 0 and self.process.poll() is None:
                time.sleep(0.05)
            bring_up(name, device, f"02:00:00:00:00:{end}", f"10.9.{9 - number}.{end}")

    def end(self):
        """What it has counted."""
        self.process.terminate()
        return self.process.communicate(timeout=10)[0]
