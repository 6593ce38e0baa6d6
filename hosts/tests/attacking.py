"""What the attacks of hosts/tests/attack and attack_clock share: the programs that they start, who asks a clock, the messages, and the count
of what holds."""
import ctypes
import functools
import os
import select
import shutil
import signal
import socket
import subprocess
import sys
import tempfile
import time

import trying
from trying import CLOCK, HOME, MANAGE, check, print_checks, sealed

ME, OTHER, MANAGER = "aabbccfffeddee01", "aabbccfffeddee99", "0011223344556677"
STRANGER, EVERY = "0a0b0c0d0e0f1011", "ff" * 8
LIBC = ctypes.CDLL(None, use_errno=True)


def is_sanitized(program):
    with open(program, "rb") as built:
        octets = built.read()
    return b"__asan_" in octets or b"__ubsan_" in octets


def sanitizer_with(option):
    """An environment in which the runtime of a sanitizer, if there is one, has one option more."""
    return dict(os.environ, ASAN_OPTIONS=os.environ.get("ASAN_OPTIONS", "") + ":" + option)


# Where strace is at a program no leaks can be found, and the runtime would end it with a status of its own.
TRACED = sanitizer_with("detect_leaks=0")

# What needs it is left out without it.
HAS_STRACE = shutil.which("strace") is not None
if not HAS_STRACE:
    print("strace is missing")

# Programs that were built with a sanitizer take longer for all that they do.
SLOW = 5 if is_sanitized(CLOCK) or is_sanitized(MANAGE) else 1
# The managers that are tried, each by what its lines begin with.
MANAGERS = {"ptpm-manage": [MANAGE], "ptpm": [sys.executable, "-m", "ptpm"]}
manager = "ptpm-manage"
os.environ["PYTHONPATH"] = os.path.join(HOME, "../bindings/python")
os.environ["PYTHONDONTWRITEBYTECODE"] = "1"
started = []            # the programs that may still run: none outlives its attack
work = tempfile.mkdtemp()
path = os.path.join(work, "socket")
os.environ["XDG_STATE_HOME"] = os.path.join(work, "state")


def start(name, *words, **streams):
    """A program of this folder, which is ended with the attack that started it. A clock stays root where no user is named."""
    stays = ["--user", "root"] if name == "clock" and "--user" not in words else []
    program = MANAGERS[manager] if name == "manage" else [os.path.join(HOME, name)]
    process = subprocess.Popen([*program, *stays, *words], **streams)
    started.append(process)
    return process


def message(number, source=STRANGER, target=EVERY, starting=1, hops=1):
    """A GET of PRIORITY1 (IEEE 1588-2019, clauses 13.3 and 15.4)."""
    return (bytes.fromhex("0d120036") + bytes(16) + bytes.fromhex(source + "0001") + number.to_bytes(2, "big")
            + bytes.fromhex("047f" + target + "ffff") + bytes([starting, hops, 0, 0]) + bytes.fromhex("000100022005"))


def get(number, target=ME):
    """Such a GET by the manager."""
    return message(number, MANAGER, target)


def field_set(number, about, field, source=MANAGER, action=1, port=0xFFFF):
    """A SET or a COMMAND of an id at a port (15.4 and 15.5)."""
    octets = bytearray(message(number, source, ME))
    octets[2:4], octets[42:44], octets[46] = (54 + len(field)).to_bytes(2, "big"), port.to_bytes(2, "big"), action
    octets[50:54] = (2 + len(field)).to_bytes(2, "big") + bytes.fromhex(about)
    return bytes(octets) + field


def set_of(number, value, source=MANAGER):
    """A SET of PRIORITY1."""
    return field_set(number, "2005", bytes([value, 0]), source)


def response(request, tlv, kind=1, clock=bytes.fromhex(ME), port=1):
    """A message by which a port of a clock answers a request, and what is in its TLV after the length."""
    head = bytearray(request[:48])
    head[2:4] = (52 + len(tlv)).to_bytes(2, "big")
    head[20:30], head[34:44], head[46] = clock + port.to_bytes(2, "big"), request[20:30], 2
    return bytes(head) + kind.to_bytes(2, "big") + len(tlv).to_bytes(2, "big") + tlv


def saves_in(octets):
    """How often the file was saved that has these octets; None where its seal is wrong, or missing."""
    saves = int.from_bytes(octets[-12:-4], "big")
    return saves if octets == sealed(octets[:-16], saves) else None


def image_in(octets):
    """The image in a file with a seal."""
    return None if saves_in(octets) is None else octets[:-16]


def flips(octets):
    """Each time with another bit changed."""
    for place, octet in enumerate(octets):
        for bit in range(8):
            yield octets[:place] + bytes([octet ^ 1 << bit]) + octets[place + 1:]


def pause(seconds):
    """Waits so long, or longer where SLOW says so."""
    time.sleep(seconds * SLOW)


def wait_until(holds, most=4):
    """Whether it comes to hold in time, or later where SLOW says so."""
    return trying.wait_until(holds, most * SLOW)


class Clock:
    """clock.c with these words, from when it says that it has started to its end."""

    def __init__(self, *words, env=None):
        self.output = open(os.path.join(work, "output"), "w+")
        self.began = time.monotonic()
        self.process = start("clock", *words, stdout=self.output, stderr=subprocess.STDOUT, env=env)
        for _ in range(100 * SLOW):
            if self.process.poll() is not None or " in domain " in self.text():
                break
            time.sleep(0.02)

    def end(self, number=signal.SIGTERM):
        """Its status, and how long it took to end, in seconds: ten and status -9 where it didn't, or more where SLOW says so."""
        asked = time.monotonic()
        if number is not None:
            self.process.send_signal(number)
        try:
            status = self.process.wait(10 * SLOW)
        except subprocess.TimeoutExpired:
            self.process.kill()
            status = self.process.wait()
        self.output.close()
        return status, time.monotonic() - asked

    def text(self):
        with open(os.path.join(work, "output")) as output:
            return output.read()


def is_listened_at():
    """Whether a program listens at the path."""
    with socket.socket(socket.AF_UNIX, socket.SOCK_DGRAM) as probe:
        return probe.connect_ex(path) == 0


class Peer:
    """A program at a Unix socket of its own."""

    def __init__(self, name):
        self.path = os.path.join(work, name)
        self.socket = socket.socket(socket.AF_UNIX, socket.SOCK_DGRAM)
        self.socket.bind(self.path)
        self.socket.settimeout(10 * SLOW)

    def ask(self, octets):
        self.socket.sendto(octets, path)

    def is_answered(self, number):
        """Whether its GET is answered in time."""
        try:
            self.ask(get(number))
            answer = self.socket.recv(2048)
        except OSError:
            return False
        return answer[30:32] == number.to_bytes(2, "big") and answer[46] == 2

    def close(self):
        self.socket.close()
        os.unlink(self.path)


def clear():
    """What an attack left: its programs, and its files, among them the sockets of its peers."""
    while started:
        process = started.pop()
        if process.poll() is None:
            process.kill()
            process.wait()
    for name in os.listdir(work):
        place = os.path.join(work, name)
        shutil.rmtree(place) if os.path.isdir(place) and not os.path.islink(place) else os.unlink(place)


def run(*words):
    return subprocess.run(words, stdout=subprocess.PIPE, stderr=subprocess.STDOUT, text=True, timeout=60)


def manage(*words):
    """Its status, what it writes, and how long it takes. A new session waits for nothing."""
    began = time.monotonic()
    done = run(MANAGE, "-m", MANAGER + "/1", "-w", "0", *words, "--target", ME)
    return done.returncode, done.stdout, time.monotonic() - began


def asks(*words):
    return manage("-u", path, *words, "get", "PRIORITY1")


def left_over():
    """A socket that a program left there."""
    with socket.socket(socket.AF_UNIX, socket.SOCK_DGRAM) as dead:
        dead.bind(path)


def write(name, text):
    """Writes a text into a file of this folder; its whole name."""
    return write_octets(name, text.encode())


def write_octets(name, content):
    with open(os.path.join(work, name), "wb") as file:
        file.write(content)
    return os.path.join(work, name)


def read(name):
    """The text of a file of this folder, or of one by its whole name."""
    with open(os.path.join(work, name)) as file:
        return file.read()


def octets(name):
    with open(os.path.join(work, name), "rb") as file:
        return file.read()


def fill_disk(folder, name="filler"):
    """Leaves no room on the disk of a folder; the file that takes it."""
    name = os.path.join(folder, name)
    with open(name, "wb", 0) as filler:
        try:
            while True:
                filler.write(bytes(4096))
        except OSError:
            return name


def has_own_socket():
    return any(name.startswith("socket.") for name in os.listdir(work))


def asked_of(liar, id, field, kind=1):
    """What manage prints of a clock that answers its GET by this dataField, or by the error status of this managementErrorId."""
    while select.select([liar.socket], [], [], 0)[0]:
        liar.socket.recv(2048)                                  # what an earlier one sent again
    asking = start("manage", "-u", path, "--target", ME + "-1", "get", id, stdout=subprocess.PIPE)
    liar.socket.settimeout(20)
    request, peer = liar.socket.recvfrom(2048)
    tlv = bytes.fromhex(id) + field if kind == 1 else field + bytes.fromhex(id) + bytes(4)
    liar.socket.sendto(response(request, tlv, kind), peer)
    return asking.communicate(timeout=20)[0]


def by_both(attack):
    """The attack on ptpm-manage, and then on the module for Python, which has the same words."""
    @functools.wraps(attack)
    def tried(*ports):
        global manager
        before = trying.failed
        for manager in MANAGERS:
            try:
                attack(*ports)
            finally:
                if trying.failed > before:
                    print(f"of {manager}")
                before, manager = trying.failed, "ptpm-manage"
            clear()
    return tried


def try_each(attacks, wanted):
    """Tries each of these attacks, with the ports after it, or those alone whose names are wanted."""
    for attack, *ports in attacks:
        if wanted and attack.__name__ not in wanted:
            continue
        try:
            attack(*ports)
        except (OSError, IndexError, subprocess.SubprocessError) as error:
            check(f"{attack.__name__} comes to its end: {error}", False)
        clear()


def run_all(name, try_all):
    """The status of a program of attacks, which tries those that its words name in a network and mounts of its own. A signal that is
    ignored here, such as SIGINT after `&` in a script, would be ignored by the programs too."""
    for number in [signal.SIGINT, signal.SIGTERM, signal.SIGHUP]:
        signal.signal(number, lambda *_: sys.exit(1))
    try:
        if os.geteuid() != 0 or LIBC.unshare(0x40000000 | 0x20000) != 0:
            sys.exit(f"{name}: a network and mounts of its own need root")
        run("mount", "--make-rprivate", "/")
        run("ip", "link", "set", "lo", "up")
        try_all(sys.argv[1:])
        return print_checks(name)
    finally:
        clear()
        shutil.rmtree(work)
