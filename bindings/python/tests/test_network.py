"""The same over UDP, and a real ptp4l, in two network namespaces with a link between them. It needs root, `ip netns` and
linuxptp."""

from __future__ import annotations

import os
import shutil
import subprocess
import sys
import time
import unittest
from typing import List

import ptpm

from . import CLOCK, Folder

PTP4L = "020000fffe000020"


def _ip(*words: str) -> None:
    subprocess.run(["ip", *words], check=True)


@unittest.skipUnless(os.geteuid() == 0 and shutil.which("ip") and shutil.which("ptp4l"), "it needs root, ip and ptp4l")
class Network(Folder):
    def setUp(self) -> None:
        super().setUp()
        self.near, self.far = f"ptpm-near-{os.getpid()}", f"ptpm-far-{os.getpid()}"
        for name in (self.near, self.far):
            _ip("netns", "add", name)
            self.addCleanup(_ip, "netns", "del", name)
        _ip("link", "add", "near0", "netns", self.near, "type", "veth", "peer", "name", "far0", "netns", self.far)
        for name, link, octet in ((self.near, "near0", 1), (self.far, "far0", 2)):
            _ip("-n", name, "link", "set", link, "address", f"02:00:00:00:00:{octet}0", "up")
            _ip("-n", name, "addr", "add", f"10.9.9.{octet}/24", "dev", link)
            _ip("-n", name, "addr", "add", f"fd09::{octet}/64", "dev", link, "nodad")
            _ip("-n", name, "addr", "add", f"fe80::{octet}/64", "dev", link, "nodad")

    def inside(self, name: str) -> List[str]:
        return ["ip", "netns", "exec", name]

    def asked(self, *words: str) -> str:
        """What the command line prints in the near namespace."""
        ran = subprocess.run(
            [*self.inside(self.near), sys.executable, "-m", "ptpm", *words], capture_output=True, text=True, check=False
        )
        return ran.stdout + ran.stderr

    def start_far_clock(self, *words: str) -> None:
        self.start_clock(*words, CLOCK, "far0", before=self.inside(self.far))

    def start_ptp4l(self, name: str = "", interface: str = "far0", more: str = "") -> str:
        path, settings = f"{self.folder}/ptp4l-{interface}", f"{self.folder}/ptp4l-{interface}.conf"
        with open(settings, "w", encoding="ascii") as file:
            file.write(f"[global]\nfree_running 1\n{more}")
        words = ["ptp4l", "-f", settings, "-S", "-4", "-i", interface, f"--uds_address={path}"]
        self.run_until(lambda _: os.path.exists(path), [*self.inside(name or self.far), *words])
        return path

    def test_a_clock_over_udp(self) -> None:
        self.start_far_clock("-m", "000000fffe000010/1")
        self.assertEqual(self.asked("-i", "near0", "get", "PRIORITY1", "--target", CLOCK), "priority1 128\n")
        said = self.asked("-i", "near0", "-w", "0", "set", "PRIORITY1", "100", "--target", CLOCK)
        new = r"ptpm: .*/000000fffe000010-1.aabbccfffeddee01 is new: the session begins at number \d+"
        self.assertRegex(said, rf"^priority1 100\n{new}\nptpm: this manager is 000000fffe000010/1, from the MAC of the interface: .*\n$")
        self.assertEqual(self.asked("-i", "near0", "set", "PRIORITY1", "101", "--target", CLOCK), "priority1 101\n")
        self.assertEqual(self.asked("--udp", "10.9.9.2", "get", "PRIORITY1", "--target", CLOCK), "priority1 101\n")
        self.assertEqual(self.asked("-i", "near0", "survey", "PRIORITY1"), f"{CLOCK}/1 priority1 101\n")

    def test_runs_beside_each_other_are_answered(self) -> None:
        """The answers are unicast, each to the port of its request."""
        self.start_far_clock("-m", "000000fffe000010/1")
        self.asked("-i", "near0", "-w", "0", "set", "PRIORITY1", "100", "-T", CLOCK)
        words = [*self.inside(self.near), sys.executable, "-m", "ptpm", "--udp", "10.9.9.2", "-T", CLOCK, "set", "PRIORITY1"]
        runs = [subprocess.Popen([*words, str(value)], stdout=subprocess.PIPE, text=True) for value in (1, 2, 3)]
        self.assertEqual([run.communicate()[0] for run in runs], ["priority1 1\n", "priority1 2\n", "priority1 3\n"])

    def test_a_clock_over_ipv6(self) -> None:
        self.start_far_clock("-6")
        self.assertEqual(self.asked("-i", "near0", "--ipv6", "get", "PRIORITY1", "--target", CLOCK), "priority1 128\n")
        self.assertEqual(self.asked("--udp", "fd09::2", "get", "PRIORITY1", "--target", CLOCK), "priority1 128\n")

    def test_the_kernel_drops_what_is_no_management_message(self) -> None:
        _ip("-n", self.near, "link", "set", "lo", "up")
        for address in ("127.0.0.1", "::1"):
            script = f"""if True:
                import socket, time, ptpm
                with ptpm.UdpTransport("lo", "{address}") as way:
                    with socket.socket(socket.AF_INET6 if ":" in "{address}" else socket.AF_INET, socket.SOCK_DGRAM) as peer:
                        for octets in (b"", bytes([0x0b, 2]), bytes([0x1d, 2])):     # the second is an Announce message
                            peer.sendto(octets, ("{address}", 320))
                    print(way.receive(time.monotonic() + 2).hex())"""
            words = [*self.inside(self.near), sys.executable, "-c", script]
            self.assertEqual(subprocess.run(words, capture_output=True, text=True, check=True).stdout, "1d02\n")

    def test_a_ptp4l(self) -> None:
        path = self.start_ptp4l()
        with ptpm.UnixTransport(path) as way:
            self.assertEqual(ptpm.get(way, PTP4L, "PRIORITY1").members, {"priority1": 128})
            [report] = ptpm.survey(way, "DEFAULT_DATA_SET")
            self.assertEqual((str(report.source.clock if report.source else None), report.members["domainNumber"]), (PTP4L, 0))
            port = ptpm.get(way, PTP4L, "PORT_DATA_SET", 1).members
            self.assertEqual((str(port["portIdentity"]), port["delayMechanism"]), (f"{PTP4L}/1", ptpm.DelayMechanism.E2E))
            with ptpm.Session(ptpm.SessionSettings("0011223344556677/1", PTP4L), wait=0) as session:
                self.assertEqual(session.ask(way, ptpm.Action.SET, "PRIORITY1", 100).members, {"priority1": 100})
            self.assertEqual(ptpm.get(way, PTP4L, "PRIORITY1").members, {"priority1": 100})
            self.assertEqual(str(ptpm.get(way, PTP4L, "2ffe")), "refused NO_SUCH_ID")
        self.assertEqual(self.asked("-i", "near0", "get", "PRIORITY2", "--target", PTP4L), "priority2 128\n")
        self.assertIn("refused NOT_SUPPORTED\n", self.asked("-i", "near0", "-w", "0", "set", "PRIORITY1", "9", "-T", PTP4L))

    def test_a_site_of_two_ptp4l(self) -> None:
        often = "logAnnounceInterval -2\nuserDescription {}\n"
        self.start_ptp4l(more=f"priority1 100\nclockClass 6\n{often.format('grandmaster')}")
        path = self.start_ptp4l(self.near, "near0", f"slaveOnly 1\n{often.format('camera')}")
        for _ in range(60):     # until the slave has chosen its master
            site = ptpm.site(unix=path, timeout=0.1, once=True)
            if len(site.clocks) == 2 and not site.findings:
                break
            time.sleep(0.5)
        [domain] = site.domains
        self.assertEqual(([str(clock.identity) for clock in domain.grandmasters], site.findings), ([PTP4L], ()))
        [camera] = [clock for clock in domain.clocks if clock.description == "camera"]
        assert camera.parent and camera.current
        self.assertEqual((str(camera.parent.parent_port_identity), camera.current.steps_removed), (f"{PTP4L}/1", 1))
        self.assertEqual(ptpm.site(lines=site.lines).domains, site.domains)

    def test_a_site_over_udp(self) -> None:
        self.start_ptp4l()
        script = "import ptpm; print(*(clock.identity for clock in ptpm.site('near0', domains='0-1', timeout=0.05).clocks))"
        said = subprocess.run([*self.inside(self.near), sys.executable, "-c", script], capture_output=True, text=True, check=True).stdout
        self.assertEqual(said, f"{PTP4L}\n")


if __name__ == "__main__":
    unittest.main()
