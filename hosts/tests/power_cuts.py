"""What the trials of hosts/tests/power share: a link that loses, repeats and holds back frames (link.c) between two network namespaces,
what is on the disk after a loss of power, and the count of what was seen and of what does not hold."""
import collections
import os
import re
import tempfile

from trying import MANAGE, Link, run

ME = "aabbccfffeddee01"
WIDTH = 7                                   # digits of a number, so that each SET has the same size
work = tempfile.mkdtemp(dir="/dev/shm" if os.path.isdir("/dev/shm") else None)
socket_path = os.path.join(work, "socket")
NEAR, FAR = f"ptpm-cuts-{os.getpid()}", f"ptpm-cut-{os.getpid()}"


def read(path):
    try:
        with open(path, "rb") as file:
            return file.read()
    except FileNotFoundError:
        return None


class Seen:
    """What a trial counts, and what of it does not hold."""

    def __init__(self):
        self.counts, self.wrong = collections.Counter(), []

    def note(self, holds, what):
        if not holds:
            self.wrong.append(what)
            print("power: failed:", what)

    def tell(self):
        for what, count in sorted(self.counts.items()):
            print(f"{what}: {count}")


class Cut(Link):
    """Two network namespaces, and the link between them, which goes by this seed."""

    def __init__(self, seed):
        for name in (NEAR, FAR):
            run("ip", "netns", "add", name)
        super().__init__(NEAR, FAR, "-l", "20", "-r", "30", "-o", "10", "-s", str(seed % 65536))

    def end(self):
        told = super().end()
        for name in (NEAR, FAR):
            run("ip", "netns", "del", name)
        return told


def value():
    """The number that the clock has, read by nobody at its Unix socket; 0 before anything is set, None where no answer came."""
    done = run(MANAGE, "-u", socket_path, "--target", ME, "get", "USER_DESCRIPTION")
    words = done.stdout.split()
    if done.returncode != 0:
        return None
    return int(words[1]) if len(words) == 2 else 0


def octets_in(text):
    return bytes.fromhex(text.replace("\\x", ""))


def lines_of(log):
    """The calls that strace told, each once it has returned, without the numbers of threads."""
    begun = {}
    for line in open(log):
        thread, text = re.match(r"(?:(\d+) +)?(.*)", line).groups()
        if text.endswith(" <unfinished ...>"):
            begun[thread] = text.removesuffix(" <unfinished ...>")
            continue
        if match := re.match(r"<\.\.\. \w+ resumed>(.*)", text):
            text = begun.pop(thread, "") + match[1]
        yield text


def on_disk(log, before):
    """What is on the disk of a file after a program's end, as strace told its calls. A file whose octets were not synchronized
    before it was renamed is empty there; a renamed file is there once the folder is synchronized."""
    new, renamed, durable, is_synchronized, at = b"", before, before, False, None
    for line in lines_of(log):
        if match := re.match(r'openat\(\d+, "[^"]*", O_WRONLY.* = (\d+)$', line):
            at, new, is_synchronized = match[1], b"", False
        elif match := re.match(r'write\((\d+), "([^"]*)", \d+\) += \d+$', line):
            if match[1] == at:
                new, is_synchronized = new + octets_in(match[2]), False
        elif match := re.match(r"fsync\((\d+)\) += 0$", line):
            if match[1] == at:
                is_synchronized = True
            else:
                durable = renamed
        elif line.startswith("renameat(") and line.endswith("= 0"):
            renamed, at = (new if is_synchronized else b""), None
    return durable


def lose(path, log, before):
    """The machine loses its power with the program: what is in memory alone is gone. Whether anything was."""
    durable = on_disk(log, before)
    if durable == read(path):
        return False
    if durable is None:
        os.unlink(path)
        return True
    with open(path, "wb") as file:
        file.write(durable)
    return True
