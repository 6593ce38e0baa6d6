"""A link of hosts/tests/servo: a master in one network namespace, and in another a ptp4l whose servo steers a clock of its own (own_clock.c)."""
import os
import re
import subprocess

from trying import CLOCK, HOME, bring_up, run

# Eight Syncs and about eight Delay_Reqs a second; a line of the log for each offset.
COMMON = """[global]
time_stamping software
use_syslog 0
verbose 1
summary_interval -4
logAnnounceInterval -1
logSyncInterval -3
logMinDelayReqInterval -3
"""


def stop(process):
    process.terminate()
    process.wait(10)


class Link:
    """Number 1 or 2. What runs there writes into the folder `work`; own_clock.so is there. `lines` are more for the configuration of each ptp4l."""

    def __init__(self, number, work, lines):
        self.names, self.start_of_path, self.running = [f"ptpm-{end}-{os.getpid()}-{number}" for end in ("master", "servo")], f"{work}/{number}.", []
        for name in self.names:
            run("ip", "netns", "add", name)
        run("ip", "link", "add", "e0", "netns", self.names[0], "type", "veth", "peer", "name", "e0", "netns", self.names[1])
        for end, name in enumerate(self.names, 1):
            bring_up(name, "e0", f"02:00:00:00:0{number}:0{end}", f"10.9.{number}.{end}")
        self.master_address, self.identity = f"10.9.{number}.1", f"020000fffe000{number}02"
        preloaded = ["env", f"LD_PRELOAD={work}/own_clock.so:{HOME}/takes.so", f"TAKEN={self.path('taken')}"]
        self.start_ptp4l(0, ["free_running 1", "priority1 1", *lines])
        self.start_ptp4l(1, ["priority1 200", *lines], *preloaded)

    def path(self, what):
        return self.start_of_path + what

    def text(self, what):
        with open(self.path(what)) as file:
            return file.read()

    def within(self, end, *words):
        return ["ip", "netns", "exec", self.names[end], *words]

    def start(self, end, what, *words):
        with open(self.path(what), "w") as output:
            self.running.append(subprocess.Popen(self.within(end, *words), stdout=output, stderr=subprocess.STDOUT))

    def start_ptp4l(self, end, lines, *preloaded):
        """Without the right to set a clock of the machine."""
        conf, socket = self.path(f"conf{end}"), self.path(f"socket{end}")
        with open(conf, "w") as file:
            file.write(COMMON + "\n".join([f"uds_address {socket}", *lines, "[e0]\n"]))
        self.start(end, f"log{end}", "setpriv", "--bounding-set=-sys_time", "--inh-caps=-sys_time", *preloaded, "ptp4l", "-f", conf)

    def counts(self):
        """What the master (0) and the servo's ptp4l (1) have sent and heard of each kind of message."""
        found = {}
        while len([word for word in found if word.endswith("tx_Sync")]) < 2:
            asking = [subprocess.Popen(self.within(end, "pmc", "-u", "-b", "0", "-i", self.path(f"pmc{end}"), "-s", self.path(f"socket{end}"),
                                                   "GET PORT_STATS_NP"), stdout=subprocess.PIPE, text=True) for end in (0, 1)]
            found = {f"{end} {word}": int(number) for end in (0, 1) for word, number in re.findall(r"([rt]x_\w+) +(\d+)", asking[end].communicate()[0])}
        return found

    def start_agent(self):
        run(*self.within(1, "nft", "-f", "-"), input=run(CLOCK, "--ptp4l-rules").stdout)
        self.start(1, "agent", CLOCK, "-s", self.path("state"), "--user", "root", "--ptp4l", self.path("socket1"), "-m", "020000fffe000010/1",
                   "-m", "020000fffe000010/2", self.identity, "e0")

    def end_agent(self):
        stop(self.running.pop())
        run(*self.within(1, "nft", "flush", "ruleset"))

    def end(self):
        for process in self.running:
            stop(process)
        for name in self.names:
            run("ip", "netns", "del", name)
