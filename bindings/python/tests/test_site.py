"""What the binding makes of a site: over the recorded sites of the repository, and over programs that are in the way. It takes the program
ptpm of the repository."""

from __future__ import annotations

import os
import re
import shlex
import subprocess
import unittest
from decimal import Decimal
from pathlib import Path
from typing import Any, Dict, Iterable, Iterator, List, Optional, Set, Tuple
from unittest import mock

import ptpm

from . import TOP, Folder

SITES = TOP / "crates/ptpm_site_report/data"
Found = Set[Tuple[str, ...]]


def setUpModule() -> None:
    """The first call of a fresh checkout puts the program together, and says so."""
    subprocess.run([str(TOP / "ptpm"), "--version"], capture_output=True, check=True)


def recorded() -> Iterator[Tuple[str, Dict[str, str], Found, Found]]:
    """Of each recorded site its name, its limits, its findings, and what is open: domain, name and clock, and the name and the clock of
    the finding from which it follows."""
    for paragraph in (SITES / "sites.txt").read_text(encoding="utf-8").split("\n\n"):
        rows = [line for line in paragraph.splitlines() if not line.startswith("#")]
        if not rows:
            continue
        options = [word for line in rows[2:] if line.startswith("options ") for word in line.split()[1:]]
        limits = {name[2:].replace("-", "_"): limit for name, limit in zip(options[::2], options[1::2])}
        if "expect" in limits:
            limits["expect"] = str(SITES / "sites" / limits["expect"])
        found = {tuple(line.replace("< ", "").split()) for line in rows[2:] if not line.startswith("options ")}
        undecided = {row for row in found if row[0] == "open"}
        yield rows[0], limits, found - undecided, {row[1:] for row in undecided}


def rows_of(findings: Iterable[ptpm.Finding]) -> Found:
    """These findings in the form of the recorded ones."""
    return {(str(one.domain_identity), one.name, str(one.clock), *map(str, one.because or ())) for one in findings}


def lines(name: str) -> List[str]:
    return (SITES / f"sites/{name}.lines").read_text(encoding="ascii").splitlines()


def told(findings: Iterable[str] = (), undecided: Iterable[str] = (), sdo_ids: Iterable[int] = ()) -> str:
    """An object of `ptpm site --json`: clock 0200a1fffe000101 answered nothing in domain 4 of these sdoIds, which were asked."""
    clock = '{"PORT_DATA_SET":[],"clockIdentity":"0200a1fffe000101"}'
    domains = [f'"domainNumber":4,"sdoId":{sdo_id}' for sdo_id in sdo_ids]
    lists = {
        "asked": [f'{{{domain},"boundaryHops":7}}' for domain in domains],
        "domains": [f'{{{domain},"grandmasters":[],"clocks":[{clock}]}}' for domain in domains], "open": undecided, "findings": findings,
    }
    return "{" + "".join(f'"{name}":[{",".join(parts)}],' for name, parts in lists.items()) + '"leftOut":{"clocks":0,"ports":0}}'


def told_finding(name: str, sdo_id: int = 0, clock: str = "0200a1fffe000101", values: str = "") -> str:
    """A finding in domain 4 of it."""
    return (
        f'{{"because":null,"clockIdentity":"{clock}",{values}"domainNumber":4,"finding":"{name}","sdoId":{sdo_id},"severity":"warning"}}'
    )


class Recorded(unittest.TestCase):
    def test_findings(self) -> None:
        for name, limits, wanted, undecided in recorded():
            with self.subTest(name):
                site = ptpm.site(lines=lines(name), **limits)
                self.assertEqual((rows_of(site.findings), rows_of(site.open)), (wanted, undecided))

    def test_members(self) -> None:
        [domain] = ptpm.site(lines=lines("a_changing")).domains
        leads = [(str(one.identity), one.heard, one.clock in domain.clocks) for one in domain.grandmasters]
        self.assertEqual(leads, [("0200a1fffe000101", "followers", False), ("0200a1fffe000201", "answer", True)])
        [clock] = [clock for clock in domain.clocks if clock.description == "bc2;rack 161"]
        assert clock.current is not None and clock.parent is not None and clock.default is not None
        self.assertEqual(clock.default.number_ports, 2)
        # 278069248 of 2^-16 ns
        self.assertEqual((clock.current.steps_removed, clock.current.offset_from_master), (2, Decimal("4243")))
        self.assertEqual(clock.parent.parent_port_identity, ptpm.PortIdentity.of("0200a1fffe000201/2"))
        self.assertEqual(clock.parent.grandmaster_clock_quality, ptpm.ClockQuality(6, 0xFE, 0xFFFF))
        self.assertEqual([port.port_state for port in clock.ports], [ptpm.PortState.SLAVE, ptpm.PortState.MASTER])

    def test_findings_of_clocks(self) -> None:
        found = {(found.name, str(found.clock)): found for found in ptpm.site(lines=lines("g_loop")).findings}
        differs = found["grandmaster_differs", "020091fffe000901"].values
        quality = {"clockAccuracy": 254, "clockClass": 6, "offsetScaledLogVariance": 65535}
        self.assertEqual((differs["value"], differs["expected"]), (quality, {**quality, "clockClass": 248}))
        loop = found["loop", "020091fffe000d01"]
        self.assertEqual(loop.values, {"clocks": ["020091fffe000d01", "020091fffe000e01"]})
        absent = found["parent_not_master", "020091fffe000801"]
        self.assertEqual(absent.values["parentPortIdentity"], {"clockIdentity": "020091fffe000101", "portNumber": 7})
        self.assertEqual(str(found["steps", "020091fffe000d01"]), "0 020091fffe000d01 steps parentStepsRemoved=3 stepsRemoved=2")
        self.assertEqual(found["steps", "020091fffe000d01"].severity, "warning")
        self.assertEqual(loop.severity, "critical")

    def test_domains_of_one_number(self) -> None:
        zero, other = ptpm.DomainIdentity(4), ptpm.DomainIdentity(4, 0x100)
        site = ptpm.read_site(told([told_finding("own_host", 0x100), told_finding("own_host")], sdo_ids=(0, 0x100)))
        self.assertEqual([domain.identity for domain in site.domains], [zero, other])
        self.assertEqual([clock.domain_identity for clock in site.clocks], [zero, other])
        self.assertNotEqual(*site.clocks)
        self.assertEqual([finding.domain_identity for finding in site.findings], [other, zero])
        self.assertNotEqual(*site.findings)
        self.assertEqual(site.asked, ((zero, 7), (other, 7)))
        self.assertEqual({finding.domain for finding in site.findings} | {domain.number for domain in site.domains}, {4})

    def test_a_grandmaster_that_is_only_heard(self) -> None:
        """Two clocks follow one that sends Announce messages, and answers nothing."""
        heard = '{"clockIdentity":"0200a1fffe000109","heard":"announce"}'
        [domain] = ptpm.read_site(told(sdo_ids=[0]).replace('"grandmasters":[]', f'"grandmasters":[{heard}]')).domains
        self.assertEqual(domain.grandmasters, (ptpm.Grandmaster(ptpm.Identity.of("0200a1fffe000109"), "announce"),))

    def test_what_is_open(self) -> None:
        site = ptpm.read_site(told(undecided=[
            told_finding("not_locked", values='"offsetFromMaster":null,"portNumber":1,"portState":"UNCALIBRATED","seconds":3,'),
            told_finding("not_asked", 0x100, "-", '"clocks":2,'),
        ]))
        port, domain = site.open
        self.assertEqual((port.values["portState"], port.values["seconds"]), ("UNCALIBRATED", 3))
        self.assertEqual((domain.clock, domain.domain_identity, domain.values), (None, (4, 0x100), {"clocks": 2}))

    def test_what_is_not_judged(self) -> None:
        lacking = told().replace('"findings":[', '"notJudged":[{"findings":["identity_twice"],"lack":"sources"}],"findings":[', 1)
        site = ptpm.read_site(lacking)
        self.assertEqual(site.not_judged, (ptpm.Lack("sources", ("identity_twice",)),))

    def test_how_many_looks_is_as_the_page_says(self) -> None:
        page = (TOP / "docs/ptpm-site.md").read_text(encoding="utf-8")
        two = set(re.findall(r"^\| `(\w+)` \| \w+ \| two \|", page, re.M))
        table = subprocess.run([TOP / "ptpm", "findings"], capture_output=True, encoding="utf-8", check=True).stdout
        self.assertEqual({line.split()[0] for line in table.splitlines() if line.split()[2] == "2"}, two)


class Programs(Folder):
    """Programs in a folder that PTPM_PROGRAMS names."""

    def setUp(self) -> None:
        super().setUp()
        patch = mock.patch.dict(os.environ, PTPM_PROGRAMS=self.folder)
        patch.start()
        self.addCleanup(patch.stop)
        self.write("ptpm", f'echo "$*" >> {self.folder}/told; exec {TOP}/ptpm "$@"')

    def write(self, name: str, script: str) -> None:
        path = Path(self.folder, name)
        path.write_text(f"#!/bin/sh\n{script}\n", encoding="utf-8")
        path.chmod(0o755)

    def shows(self, name: str, then: str = "") -> None:
        """ptpm-manage shows a recorded site, and notes its words. It finds the program ptpm in the PATH."""
        keep = 'while [ "$1" != --lines ]; do shift; done; cp recorded "$2"'
        os.symlink(SITES / f"sites/{name}.lines", f"{self.folder}/recorded")
        self.write("ptpm-manage", f'cd {self.folder}; echo "$*" >> words; {keep}; echo noted >&2; ptpm site --json < recorded; {then}')

    def asked(self) -> List[str]:
        """The words of each run, without the file of its lines."""
        words = Path(self.folder, "words").read_text(encoding="ascii")
        return re.sub(r" --lines /\S+ status --json$", "", words, flags=re.M).splitlines()

    def refused(self, what: str, status: Optional[int], **words: Any) -> None:
        with self.assertRaises(ptpm.SiteError) as caught:
            ptpm.site(**words)
        self.assertRegex(str(caught.exception), what)
        self.assertEqual(caught.exception.status, status)

    def test_what_is_asked(self) -> None:
        self.shows("b_lonely")
        site = ptpm.site(["eth0", "eth1"], domains="all", hops=3, attempts=5, timeout=0.25, listen=2, ipv6=True, limit=20, once=True)
        self.assertEqual((list(site.lines), site.notes), (lines("b_lonely"), ("noted",)))
        self.assertEqual(site.findings, ptpm.site(lines=site.lines).findings)
        ptpm.site(udp="192.0.2.7", sdo="all", max_offset="none", max_delay=0, tai_utc=37, settle=5, profile="default", ignore=["leap", "mute"])
        ptpm.site(unix=Path("/run/ptp4l"), domains=ptpm.DomainIdentity(4, 0x100), expect=Path("/hall"), ethernet=True)
        self.assertEqual(self.asked(), [
            "--interface eth0 --interface eth1 --ipv6 --domain all --hops 3 --attempts 5 --timeout 250 --listen 2 --once",
            "--udp 192.0.2.7 --domain 0 --sdo all --max-offset none --max-delay 0 --tai-utc 37 --settle 5 --profile default "
            "--ignore leap --ignore mute",
            "--unix /run/ptp4l --ethernet --domain 4 --sdo 256 --expect /hall",
        ])
        self.assertRaises(ValueError, ptpm.site, "eth0", domains=ptpm.DomainIdentity(4, 0x100), sdo=0x100)

    def test_no_clock_at_one_of_two_interfaces(self) -> None:
        said = ("eth1", "eth2: nothing was sent: Network is unreachable")
        notes = "".join(f"ptpm-manage: no clock answered at {way}\n" for way in said)
        self.shows("a_chain", f"printf %s {shlex.quote(notes)} >&2; exit 3")
        self.assertEqual(ptpm.site(["eth0", "eth1", "eth2"]).silent_ways, ("eth1", "eth2"))

    def test_what_is_left_out(self) -> None:
        more = '"leftOut":{"delayReq":7,"notLookedFor":["mute","not_asked"],'
        site = ptpm.read_site(told(sdo_ids=[0]).replace('"leftOut":{', more))
        self.assertEqual((site.left_out, site.not_looked_for), ({"delayReq": 7, "clocks": 0, "ports": 0}, ("mute", "not_asked")))
        self.assertEqual(site.gaps, ("left out: 7 delayReq",))

    def test_lines_that_were_collected_before(self) -> None:
        wanted = Path(self.folder, "hall")
        wanted.write_text("# no clock yet\n0 * priority2 128\n", encoding="ascii")
        ptpm.site(lines=lines("a_chain"), settle=5, profile="default", expect=wanted, ignore="leap")
        printed = Path(self.folder, "told").read_text(encoding="ascii")
        self.assertEqual(printed, f"site --settle 5 --profile default --expect {wanted} --ignore leap --json\n")
        self.refused("none of default, st2059-2, aes67 and gptp", 2, lines=lines("a_chain"), profile="other")
        self.refused("hall2: No such file", 2, lines=lines("a_chain"), expect=f"{self.folder}/hall2")
        self.assertRaises(ValueError, ptpm.site, "eth0", lines=[])

    def test_refusals(self) -> None:
        self.refused("BadLine 1 BadHex", 1, lines=["zz"])
        self.refused("no clock answered", 3, lines=[])
        self.refused(f"{self.folder}/ptpm-manage: No such file", None, unix="/run/ptp4l")
        self.write("ptpm-manage", "echo ptpm-manage: no answer >&2; ptpm site --json < /dev/null")
        self.refused("^ptpm-manage: no answer$", 3, unix="/run/ptp4l")
        self.write("ptpm-manage", "echo ptpm-manage: the way is missing >&2; exit 2")
        self.refused("^ptpm-manage: the way is missing$", 2)
        self.write("ptpm-manage", "exec sleep 60")
        self.refused("took over 0.2 s", None, unix="/run/ptp4l", limit=0.2)
        for printed in ("[]", "{}", '{"domains":[{}],"findings":[],"leftOut":{"clocks":0,"ports":0}}'):
            self.write("ptpm", f"echo '{printed}'")
            self.refused("printed no site", 0, lines=lines("a_chain"))
        self.write("ptpm", "exit 1")
        self.refused("ptpm ended with status 1$", 1, lines=[])
        self.write("ptpm", "echo broken >&2; exit 1")
        self.refused("^broken$", 1, lines=[])


if __name__ == "__main__":
    unittest.main()
