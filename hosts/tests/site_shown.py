"""What manage.c does for `ptpm monitor`, for hosts/tests/try_site: a program in its place says what is to be done, and notes what came of it.
What `ptpm monitor` itself decides is on the page tests/monitor.md."""
import json
import os
import shutil
import signal
import subprocess
import time

from site_network import AT_NEAR, WITH_OWN, answers_in, identity, requests_in, start_clock, stop, text_in, work, write
from trying import HOME, MANAGE, check, run, wait_until

ONE, OTHER = identity(1), identity(2)

# Says each line of a file in turn, and with those that have an answer waits for it. The file's first object has the status.
MONITOR = """#!/usr/bin/env python3
import json, os, sys
folder = os.path.dirname(os.path.abspath(__file__))
said = json.load(open(folder + "/said"))
print(*sys.argv[1:], file=open(folder + "/words", "w"))
if said["status"] == 2:
    sys.exit(2)
print("monitor 1", flush=True)
looks, replies = 0, [sys.stdin.readline()]
for line in said["lines"]:
    verb, _, rest = line.partition(" ")
    if verb == "print":
        kind, _, text = rest.partition(" ")
        octets = text.encode("utf-8", "surrogateescape")
        print("print", kind, len(octets), flush=True)
        sys.stdout.buffer.write(octets)
        sys.stdout.buffer.flush()
    else:
        print(line, flush=True)
    if verb in ("look", "listen", "watch", "open", "print"):
        replies.append(sys.stdin.readline())
    if verb == "look":
        with open(f"{folder}/lines.{looks}", "w") as lines:
            for one in iter(sys.stdin.readline, "end\\n"):
                lines.write(one)
        looks += 1
    json.dump(replies, open(folder + "/replies.new", "w"))
    os.rename(folder + "/replies.new", folder + "/replies")
    if replies[-1] == "lost\\n":
        sys.exit(4)
sys.exit(said["status"])
"""


class Told:
    """A run of manage.c with that program, which says these lines and ends with a status."""

    def __init__(self, lines, *words, status=0):
        self.folder = os.path.join(work, "told")
        shutil.rmtree(self.folder, ignore_errors=True)
        os.mkdir(self.folder)
        write(f"{self.folder}/said", json.dumps({"lines": lines, "status": status}))
        write(f"{self.folder}/ptpm", MONITOR)
        os.chmod(f"{self.folder}/ptpm", 0o755)
        self.environment = dict(os.environ, PATH=self.folder + ":" + os.environ["PATH"])
        self.words = words

    def run(self, around=()):
        self.done = run(*AT_NEAR, *around, MANAGE, "-i", "near0", *self.words, env=self.environment)
        return self

    def start(self, **streams):
        return subprocess.Popen([*AT_NEAR, MANAGE, "-i", "near0", *self.words], env=self.environment, **streams)

    @property
    def given(self):
        return text_in(f"{self.folder}/words").split()

    @property
    def replies(self):
        path = f"{self.folder}/replies"
        return [reply.split() for reply in json.load(open(path))] if os.path.exists(path) else []

    def lines(self, look):
        return [line for line in text_in(f"{self.folder}/lines.{look}").splitlines() if line.split()[0] not in ("clock", "way")]

    def answers(self, look):
        return answers_in("".join(line + "\n" for line in self.lines(look)))

    def ways(self, look):
        return [line.split()[1:] for line in text_in(f"{self.folder}/lines.{look}").splitlines() if line.startswith("way ")]

    def clocks(self, look):
        return {tuple(line.split()[1:]) for line in text_in(f"{self.folder}/lines.{look}").splitlines() if line.startswith("clock ")}


def told(lines, *words, around=(), status=0):
    return Told(lines, *words, status=status).run(around)


def given_options():
    """The options of `status` go to `ptpm monitor`, and what every clock answers."""
    ran = told(["look 7", "print text a site\n"], "status", "--max-offset", "500", "--max-delay", "1000", status=1)
    check("status prints what ptpm monitor prints, with its status", ran.done.returncode == 1 and ran.done.stdout == "a site\n")
    check("its limits go to ptpm monitor", ran.given == "monitor --max-offset 500 --max-delay 1000 --hops 7 --forget 86400000".split())
    words = "--max-offset none --max-delay +18446744073709551615 --tai-utc -32768 --settle 004294967295"
    ran = told([], "status", *words.split(), "--ignore", "steps", "--ignore", "gone,mute", "--all", "--once", "-b", "3")
    check("and so do no limit, and the last numbers of ranges, as they are written",
          ran.given == f"monitor {words} --ignore steps,gone,mute --all --hops 3 --forget 86400000 --once --as-far-as-named".split())
    ran = told([], "status", "--html", "--watch", "2", "--forget", "9", "--output", f"{work}/none")
    check("and its times", ran.given == "monitor --html --hops 7 --watch 2000 --forget 9000 --replace".split())
    for address, left in ("10.9.9.77", ["--ignore", "grandmaster_not_seen,parent_not_seen"]), ("224.0.1.129", []):
        ran = told([], "status", "--udp", address)
        check(f"who is not asked at {address} is not missed", ran.given == ["monitor", *left, "--hops", "7", "--forget", "86400000"])
    ran = told(["look 7", "look 15"], "status")
    check("each look has the answers of all clocks", [len(ran.answers(look)) for look in (0, 1)] == [12, 12]
          and {line[40:56] for line in ran.answers(0)} == {ONE, OTHER} and ran.clocks(0) == {("0", "0", ONE), ("0", "0", OTHER)})
    check("and goes as far as is said", [{request[0] for request in requests_in(ran.lines(look))} for look in (0, 1)] == [{7}, {15}])
    check("nothing is asked if the options are refused", told([], "status", status=2).done.returncode == 2)


def writes():
    """What is printed goes into a file, which keeps its owner and mode."""
    page = f"{work}/page"
    with open(page, "w") as file:
        os.fchmod(file.fileno(), 0o640)
        os.fchown(file.fileno(), 7, 8)
    told(["print octets one\n", "print text two\n"], "status", "--output", page)
    found = os.stat(page)
    check("a file that is replaced keeps its owner and mode", text_in(page) == "two\n"
          and (found.st_mode & 0o777, found.st_uid, found.st_gid) == (0o640, 7, 8))
    moves = f"mkdir {work}/pages; (until [ -e {work}/pages/page ]; do sleep 0.1; done; mv {work}/pages {work}/moved; mkdir {work}/pages) & exec \"$@\""
    told(["print text one\n", "listen 1000", "print text two\n"], "status", "--output", f"{work}/pages/page", around=["sh", "-c", moves, "sh"])
    check("a folder is the one that has the name by then", os.listdir(f"{work}/pages") == os.listdir(f"{work}/moved") == ["page"])


def loses_power():
    """The machine loses its power as a watch replaces a file, at each call of that (dies.c)."""
    left = []
    for call in range(1, 7):
        state = f"{work}/power{call}"
        page = f"{state}/ptpm/page.journal"         # dies.so counts from the rename to such a name on
        os.makedirs(os.path.dirname(page))
        write(page, "none\n")
        told(["print text one\n", "print text two\n"], "status", "--output", page,
             around=["env", f"XDG_STATE_HOME={state}", f"LD_PRELOAD={HOME}/dies.so", f"DIES_AT={call}", "LOSES=1"])
        left.append(text_in(page).strip())
    check(f"a file that is replaced is whole after a loss of power: {left}", left == ["none", "one", "one", "one", "one", "two"])


def keeps_lines():
    """The lines of a look go into a file too."""
    ran = told(["look 7", "look 15"], "status", "--lines", f"{work}/lines")
    check("a file has the lines of the latest look", text_in(f"{work}/lines").splitlines() == ran.lines(1) != ran.lines(0))
    takes_place = f"(until rmdir {work}/place 2> /dev/null; do :; done; touch {work}/place) & exec \"$@\""
    ran = told(["look 7"], "status", "--lines", f"{work}/place/lines", around=["sh", "-c", takes_place, "sh"])
    check("that they could not be written is said", ran.done.returncode == 4
          and ran.done.stderr == f"ptpm-manage: --lines {work}/place/lines: Not a directory\n")


def descriptions():
    """Texts of clocks that could control a terminal."""
    for locale, printed in (("C.UTF-8", "Û é 日"), ("C", "\\xc3\\x9b é \\xe6\\x97\\xa5")):
        os.environ["LC_ALL"] = locale
        check(f"a description controls no terminal in {locale}", told(["print text Û é 日\n"], "status").done.stdout == printed + "\n")
        del os.environ["LC_ALL"]
    controls = '{"a":"\x9b31m\x7f\u202e é"}\n'
    escaped = controls.replace("\x9b", "\\u009b").replace("\x7f", "\\u007f").replace("\u202e", "\\u202e")
    check("nor does one in JSON", told(["print json " + controls], "status", "--json").done.stdout == escaped)


def waits():
    """The times that are said, and a clock of the host that is set."""
    ran = told(["look 7", "listen 1500", "look 7"], "status")
    begin, first, listened, second = [int(reply[place]) for reply, place in zip(ran.replies, (1, 2, 1, 2))]
    check("it listens for as long as is said, and says when that is over", begin < first and 1500 <= listened - first < 2500 and listened < second)
    for seconds in "3600", "-3600":
        ran = told(["look 7", "listen 8000", "look 7"], "status", around=["env", f"SET_BY={seconds}", "SET_AFTER=8", f"LD_PRELOAD={HOME}/set_clock.so"])
        steps = [round(int(ran.replies[place][3]) / 1e9) for place in (1, 3)]
        check(f"by how much the clock was set is said: {steps}", steps == [0, int(seconds)])


def goes_meanwhile(clocks):
    """A clock that answered before is asked alone."""
    watch = Told(["look 7", "expect these", "watch 1000", "look 7", "watch 60000"], "status", "--watch", "1")
    process = watch.start(stdout=subprocess.PIPE)
    wait_until(lambda: len(watch.replies) > 1, 10)
    stop(clocks[:1])
    wait_until(lambda: len(watch.replies) > 3, 10)
    process.send_signal(signal.SIGINT)
    check("a watch ends by a signal", process.wait(10) == 130)
    process.stdout.close()
    check("a clock that answered before is asked alone", (7, ONE) in requests_in(watch.lines(1)) and (7, ONE) not in requests_in(watch.lines(0)))
    check("and is none that answered", watch.clocks(1) == {("0", "0", OTHER)})


def unread():
    """A watch whose output nobody reads."""
    process = Told(["print text a\n", "watch 1000", "watch 1000", "watch 1000"], "status", "--watch", "1").start(stdout=subprocess.PIPE)
    process.stdout.readline()
    process.stdout.close()
    try:
        check("a watch ends where nobody reads it", process.wait(10) == 4)
    except subprocess.TimeoutExpired:
        process.kill()
        check("a watch that nobody reads ends", False)


def wait_for(lines, start):
    """The next line that starts so."""
    return next((line for line in lines if line.startswith(start)), "")


def shown_by_ptpm(clocks):
    """With `ptpm` itself: a site, and then what comes and goes."""
    done = run(*AT_NEAR, MANAGE, "-i", "near0", "status", "--ignore", "gm_free_running,two_grandmasters", env=WITH_OWN)
    check("a site is shown", done.returncode == 0 and "\nfindings: none\n" in done.stdout and ONE in done.stdout and OTHER in done.stdout)
    check("and its object", json.loads(run(*AT_NEAR, MANAGE, "-i", "near0", "status", "--json", env=WITH_OWN).stdout)["leftOut"] == {"clocks": 0, "ports": 0})
    process = subprocess.Popen([*AT_NEAR, MANAGE, "-i", "near0", "status", "--watch", "1", "--ignore", "gm_free_running,two_grandmasters"],
                               env=WITH_OWN, stdout=subprocess.PIPE, text=True)
    lines = iter(process.stdout.readline, "")
    wait_for(lines, "findings: none")
    stop(clocks[:1])
    went = wait_for(lines, "20")
    clocks[:1] = [start_clock(ONE, "far0")]
    came = [wait_for(lines, "20") for _ in range(2)]
    process.send_signal(signal.SIGTERM)
    check(f"a clock goes, and comes: {went}{came}", went[20:] == f" + 0 {ONE} gone answers no more\n"
          and [line[20:] for line in came] == [f" + 0 {ONE} answers\n", f" - 0 {ONE} gone answers no more\n"])
    check("the watch ends by a signal", process.wait(10) == 143)
    process.stdout.close()


def shows():
    clocks = [start_clock(clock, "far0") for clock in (ONE, OTHER)]
    time.sleep(1)
    for trial in (given_options, writes, loses_power, keeps_lines, descriptions, waits, unread):
        trial()
    shown_by_ptpm(clocks)
    goes_meanwhile(clocks)
    stop(clocks[1:])
