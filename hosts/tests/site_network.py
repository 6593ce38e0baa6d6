"""The network of hosts/tests/try_site: its namespaces, the programs that run there, and what is in the lines that manage.c prints."""
import os
import re
import shutil
import subprocess
import sys
import tempfile
import time

from trying import CLOCK, HOME, MANAGE, run

PROGRAM = os.path.join(os.path.dirname(HOME), "ptpm")
NEAR, FAR, BEYOND = (f"ptpm-{name}-{os.getpid()}" for name in ("site", "clocks", "behind"))
AT_NEAR = ["ip", "netns", "exec", NEAR]                     # before the words of a program there
WITH_OWN = dict(os.environ, PATH=os.path.dirname(HOME) + ":" + os.environ["PATH"])        # finds the repository's `ptpm` first
work = tempfile.mkdtemp()
started = []


def start(namespace, *words):
    process = subprocess.Popen(["ip", "netns", "exec", namespace, *words], stdout=subprocess.DEVNULL, stderr=subprocess.DEVNULL)
    started.append(process)
    return process


def start_clock(*words, namespace=FAR):
    return start(namespace, CLOCK, *words)


def start_script(script, *words):
    """A program in Python at the far end, once it has its sockets: then it prints a line."""
    process = subprocess.Popen(["ip", "netns", "exec", FAR, sys.executable, "-c", script, *words], stdout=subprocess.PIPE,
                               stderr=subprocess.DEVNULL)
    started.append(process)
    process.stdout.readline()
    return process


def stop(processes):
    for process in processes:
        process.terminate()
    for process in processes:
        process.wait(10)
        started.remove(process)


def manage(*words, namespace=NEAR, **more):
    """What it does, and how long it takes, in seconds."""
    began = time.monotonic()
    done = run("ip", "netns", "exec", namespace, MANAGE, *words, **more)
    return done, time.monotonic() - began


def text_in(path):
    with open(path) as file:
        return file.read()


def write(path, text):
    with open(path, "w") as file:
        file.write(text)


def answers_in(text):
    """The answers among the lines of a collection, each without the words before it."""
    datagrams = [line.split()[-1] for line in text.splitlines() if not line.startswith("#") and " taken=" not in line]
    return [datagram for datagram in datagrams if datagram[1] == "d" and datagram[93] == "2"]


def untaken_in(text):
    """The clock of each answer that was not taken, and why."""
    found = (re.search(r" taken=(\w+) (\w+)$", line) for line in text.splitlines())
    return [(line[2][40:56], line[1]) for line in found if line]


def clocks_of(done):
    """The ids that each clock of a domain answered."""
    found = {}
    for line in answers_in(done.stdout):
        found.setdefault((int(line[8:10], 16), line[40:56]), set()).add(line[104:108])
    return found


def in_sdo_ids(text):
    """The sdoId, domain and clock of each answer among the lines of a collection."""
    return {(line[0] + line[10:12], int(line[8:10], 16), line[40:56]) for line in answers_in(text)}


def types_heard(text):
    """majorSdoId and messageType of all lines of a collection that are no management messages."""
    return {line.split()[-1][:2] for line in text.splitlines() if not line.startswith("#")} - {"0d", "1d"}


def requests_in(lines):
    """The GETs among lines: startingBoundaryHops, and the clock that each goes to."""
    datagrams = [line.split()[-1] for line in lines if not line.startswith("#")]
    return [(int(datagram[88:90], 16), datagram[68:84]) for datagram in datagrams if datagram[1] == "d" and datagram[93] == "0"]


def identity(number):
    return f"aabbccfffe{number:06x}"


def end():
    for process in started:
        process.kill()
        process.wait()
    for name in (NEAR, FAR, BEYOND):
        run("ip", "netns", "del", name)
    shutil.rmtree(work)
