"""The networks in which tools/commands runs the commands of the documents: of network namespaces, over a file system of its own.

Nothing that is done in them leaves a trace on the machine. The folders that an installation writes to, and the repository itself,
are covered by an overlay, and the processes end with the scene."""
import os
import subprocess
import sys
import tempfile
import time

# Folders that commands write to. What they write is in memory, and seen by these commands alone. PAGES is that of a web server.
COVERED = ["/usr/local", "/etc", "/var"]
PAGES = "/var/www/html"

# In all networks: a bridge for each segment, and hosts, each with its MACs, one for each segment that it is in.
HOSTS = {"manager": {0: "02:00:00:00:00:10"}, "neighbour": {0: "02:00:00:00:00:20"},
         "device": {0: "02:00:00:00:00:30", 1: "02:00:00:00:00:31"}, "visitor": {0: "02:00:00:00:00:01"},
         "receiver": {0: "02:00:00:00:00:50"}, "hall": {0: "02:00:00:00:00:51", 1: "02:00:00:00:00:52"},
         "left": {1: "02:00:00:00:00:53"}, "right": {1: "02:00:00:00:00:54"}}

# A ptp4l that announces itself at once, and whose servo is soon content. It may not move a clock of the machine: no process may
# that WITHOUT_CLOCK starts.
PTP4L = """[global]
time_stamping software
logAnnounceInterval -3
logSyncInterval -3
pi_proportional_const 0.7
pi_integral_const 0.3
first_step_threshold 0.0
uds_address {socket}
clockIdentity {identity}
priority1 {priority}
"""
WITHOUT_CLOCK = "setpriv --bounding-set=-sys_time --inh-caps=-sys_time"
# What a grandmaster says of itself whose time is no TAI. A ptp4l that says that its time is one has followers that are off by
# seconds here, since all of them read one clock, which has UTC.
SERVER = "clockClass 13\nclockAccuracy 0x21\noffsetScaledLogVariance 0x4e5d\ntimeSource 0x90\n"
SITE = [("receiver", ["eth0"], "020000.fffe.000010", "time server", 100),
        ("hall", ["eth0", "eth1"], "020000.fffe.000021", "switch, hall 2", 120),
        ("left", ["eth0"], "020000.fffe.000031", "camera 7", 128), ("right", ["eth0"], "020000.fffe.000032", "camera 8", 128)]
NEIGHBOUR = [("neighbour", ["eth0"], "020000.fffe.000020", "", 128)]
# Of pages whose ptp4l have agents beside them: those beyond the neighbour.
BESIDE_AGENTS = {"README.md": [("receiver", ["eth0"], "020000.fffe.000050", "", 128)]}

LAB = "docs/tutorial.md"    # whose network is that of examples/lab
BESIDE = "docs/ptp4l.md"    # whose agent is the neighbour's, beside its ptp4l
AT_REST = 69            # octets of a session's file without a request, its seal among them
# The clocks that a page does not begin itself: at the device, with the manager.
AGENT = "ptpm-clock -m 000000fffe000010/1"
# A ptp4l of another sdoId, over Ethernet.
OTHER_SDO = ("printf '[global]\\ntransportSpecific 0x1\\nclockIdentity 020000.fffe.000033\\n' > /run/other.conf; "
             f"exec {WITHOUT_CLOCK} ptp4l -2 -S -m -i eth0 -f /run/other.conf --uds_address /run/ptp4l.other")
AGENTS = {"docs/ptpm-manage.md": [f"{AGENT} aabbccfffeddee01 eth0 eth1", f"{AGENT} -d 4 aabbccfffeddee01 eth0",
                                  f"{AGENT} -2 aabbccfffeddee01 eth0", OTHER_SDO],
          "docs/bindings.md": [f"{AGENT} aabbccfffeddee01 eth0"],
          "docs/changing-a-site.md": [f"{AGENT} aabbccfffeddee01 eth0", f"{AGENT} aabbccfffeddee02 eth0"]}


def shell(text, host=None, **words):
    """Runs a text of the shell, in the network of a host if one is named."""
    there = ["ip", "netns", "exec", host] if host else []
    return subprocess.run([*there, "sh", "-c", text], stdout=subprocess.PIPE, stderr=subprocess.STDOUT, text=True, check=False, **words)


def enter(script, arguments):
    """Goes on as a process whose mounts, network and processes are its own, if this one may make such; returns if it may not."""
    new = ["unshare", "--mount", "--net", "--pid", "--fork", "--kill-child", "--mount-proc"]
    if os.geteuid() != 0 or shell(" ".join(new) + " true").returncode != 0:
        return
    os.execvp(new[0], new + [sys.executable, script, "--inside", *arguments])


def cover(home):
    """Covers each folder that commands write to; whether that is done."""
    if shell("mount -t tmpfs none /run && mkdir /run/netns && ip link set lo up").returncode != 0:
        return False
    for place, folder in enumerate([*COVERED, home]):
        for part in ("new", "work"):
            os.makedirs(f"/run/above/{place}/{part}")
        options = f"lowerdir={folder},upperdir=/run/above/{place}/new,workdir=/run/above/{place}/work"
        if shell(f"mount -t overlay overlay -o {options} {folder}").returncode != 0:
            return False
    return True


def connect():
    """The segments, and the hosts in them, as HOSTS has them."""
    lines = ["set -e"]
    for segment in (0, 1):
        lines.append(f"ip link add segment{segment} type bridge mcast_snooping 0 && ip link set segment{segment} up")
    for number, (host, places) in enumerate(HOSTS.items(), 1):
        lines += [f"ip netns add {host} && ip -n {host} link set lo up",
                  f"ip netns exec {host} sysctl -qw net.ipv6.conf.default.accept_dad=0"]
        for place, (segment, mac) in enumerate(places.items()):
            lines += [f"ip link add {host}{place} type veth peer name eth{place} netns {host}",
                      f"ip link set {host}{place} master segment{segment} up",
                      f"ip -n {host} link set eth{place} address {mac} up",
                      f"ip -n {host} addr add 10.0.{segment}.{number}/24 dev eth{place}"]
    done = shell("\n".join(lines))
    return done.returncode == 0 or sys.exit(f"tools/commands: no network: {done.stdout}")


class Scene:
    """One network after another, with the programs that run in it."""

    def __init__(self, home):
        self.home, self.clocks, self.running, self.programs, self.place = home, None, [], [], "manager"
        path = f"{home}/out/commands/bin:/usr/local/bin:{os.environ['PATH']}:/usr/sbin:/sbin"
        self.environment = {**os.environ, "PATH": path, "LC_ALL": "C.UTF-8", "HOME": "/run",
                            "CARGO_HOME": os.environ.get("CARGO_HOME", os.path.expanduser("~/.cargo")),
                            "RUSTUP_HOME": os.environ.get("RUSTUP_HOME", os.path.expanduser("~/.rustup"))}

    def start(self, host, text):
        """A program that goes on, and the file of what it prints."""
        said = tempfile.TemporaryFile("w+")
        process = subprocess.Popen(["ip", "netns", "exec", host, "sh", "-c", text], cwd=self.home, env=self.environment, stdout=said,
                                   stderr=subprocess.STDOUT, stdin=subprocess.DEVNULL, start_new_session=True)
        self.running.append(process)
        return process, said

    def start_program(self, host, text):
        """The program of a page, in place of the one before."""
        self.stop(self.programs)
        started = self.start(host, text)
        self.programs = [started[0]]
        return started

    def stop(self, processes):
        for process in processes:
            shell(f"kill -- -{process.pid}")
        for process in processes:
            process.wait()

    def end(self):
        """Ends what runs, so that the next page finds none of it."""
        self.stop(self.running)
        for host in ("manager", "neighbour", "receiver"):
            shell("nft flush ruleset", host)
        shell("rm -rf /var/lib/ptpm /run/ptp4l*")
        self.clocks, self.running, self.programs = None, [], []

    def show(self, page, is_site):
        """The network for a command of a page: the site of four clocks, or the neighbour and the page's agents."""
        if self.clocks == (page, is_site) or (self.clocks and page == LAB):
            return
        self.end()
        self.clocks, self.place = (page, is_site), "visitor" if is_site else "manager"
        if page == LAB:
            self.place = "lab-manager"
            return
        for host, interfaces, identity, name, priority in SITE if is_site else NEIGHBOUR + BESIDE_AGENTS.get(page, []):
            socket = "/run/ptp4l" if host == "neighbour" else f"/run/ptp4l.{host}"
            with open(f"/run/{host}.conf", "w", encoding="utf-8") as file:
                file.write(PTP4L.format(socket=socket, identity=identity, priority=priority))
                file.write(f"userDescription {name}\n" if name else "")
                file.write(SERVER if is_site and host == "receiver" else "")
            ports = [f"-i {interface}" for interface in interfaces]
            self.start(host, " ".join([WITHOUT_CLOCK, "ptp4l", "-m", "-f", f"/run/{host}.conf", *ports]))
            if page in BESIDE_AGENTS and not is_site:
                shell("ptpm-clock --ptp4l-rules | nft -f -", host)
                self.start(host, f"{AGENT} --ptp4l {socket} {identity} {' '.join(interfaces)}")
        for text in [] if is_site else AGENTS.get(page, []):
            self.start("device", text)
        if page == BESIDE:
            shell("mkdir /var/lib/ptpm")
        self.settle(["camera 7", "camera 8", "findings: none"] if is_site else ["020000fffe000020"])

    def settle(self, wanted):
        """Waits until the network is what the pages show of it."""
        end, printed = time.monotonic() + 30, ""
        passing = ["LISTENING", "UNCALIBRATED"]
        while time.monotonic() < end and (any(word in printed for word in passing) or not all(word in printed for word in wanted)):
            time.sleep(0.2)
            printed = self.run("ptpm-manage -i eth0 status --once").stdout

    def host_of(self, text):
        """Where a command runs. The lab makes namespaces, which it can't inside another one."""
        if self.clocks[0] == BESIDE and "ptpm-manage " not in text:
            return "neighbour"
        return None if "examples/lab" in text else self.place

    def run(self, text):
        return shell(text, host=self.host_of(text), cwd=self.home, env=self.environment, stdin=subprocess.DEVNULL, timeout=300)

    def latest_apply(self):
        """Its name."""
        names = [name for name in os.listdir("/var/lib/ptpm/apply") if name.endswith(".journal")]
        return max(names, key=lambda name: os.path.getmtime(f"/var/lib/ptpm/apply/{name}"), default="none")[:-len(".journal")]

    def leave_pending(self, text):
        """Ends a run of `set PRIORITY1 100` before its answer, so that the next run finds its request. On a busy machine it gets that far
        later."""
        before = text.split(" set ")[0].replace("sudo ", "")
        for turn in range(200):
            self.run(f"timeout -s KILL {0.02 + turn / 1000:.3f} {before} -q -n 4000 set PRIORITY1 100")
            images = [os.path.getsize(f"/var/lib/ptpm/{name}") for name in os.listdir("/var/lib/ptpm") if name.endswith("aabbccfffeddee01")]
            if any(AT_REST < size < AT_REST + 20 for size in images):       # a GET's 20 octets would make it longer
                return


def make(home):
    """The scene, over what is built and installed; None if it can't be made."""
    if not cover(home) or not connect():
        return None
    for path, text in [("/usr/local/bin/sudo", 'exec "$@"'), ("/usr/local/lib/device", "exit 0")]:     # which a clock asks
        with open(path, "w", encoding="utf-8") as file:
            file.write(f"#!/bin/sh\n{text}\n")
        os.chmod(path, 0o755)
    os.makedirs(PAGES, exist_ok=True)
    done = shell("make -s -C hosts install PREFIX=/usr/local", cwd=home)
    return Scene(home) if done.returncode == 0 else sys.exit(f"tools/commands: {done.stdout}")
