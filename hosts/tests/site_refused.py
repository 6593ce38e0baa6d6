"""Command lines of manage.c that are refused, for hosts/tests/try_site: by itself, or by `ptpm monitor` before anything is asked."""
import os
import select
import socket
import subprocess
import tempfile

from site_network import PROGRAM, WITH_OWN, identity, manage, text_in, work, write
from trying import MANAGE, check, run

NOT_ASKED = "nothing was asked: ptpm monitor refuses these options"

REFUSED = """-d 256 collect|--domain 256: it takes a number from 0 to 255, two as 0-7, or all
-d 7-3 collect|--domain 7-3: it takes
-d 7- collect|--domain 7-: it takes
-d each status|--domain each: it takes
-d 0-7 survey PRIORITY1|--domain 0-7: it takes a number from 0 to 255
collect PRIORITY1|collect PRIORITY1: collect takes no managementId
collect --target aabbccfffeddee01|collect asks every clock: it takes no --target
-m 0011223344556677/1 collect|--manager: collect asks anonymously
-x status|status takes none of --port, --text, --hexadecimal and --numbers
--json collect|--json: collect prints datagrams in hexadecimal
--watch 1 survey PRIORITY1|--watch: only status takes it
--listen 1 survey PRIORITY1|--listen: only collect and status take it
--sdo 4096 collect|--sdo 4096: it takes a number from 0 to 4095, one from 0x000 to 0xfff, or all
--sdo 0x1000 status|--sdo 0x1000: it takes
--sdo 0x status|--sdo 0x: it takes
--sdo -1 status|--sdo -1: it takes
--sdo 1@0 status|--sdo 1@0: it takes
--sdo 0 survey PRIORITY1|--sdo: only collect and status take it
--watch 0 status|--watch 0: it takes a number from 1 to 86400
--for 0 status|--for 0: it takes a number from 1 to 86400
--for 4 collect|--for: only status takes it
--for 4 --once status|--for excludes --once and --watch
--for 4 --watch 1 status|--for excludes --once and --watch
--watch 1 --forget 31622401 status|--forget 31622401: it takes a number from 1 to 31622400
--forget 60 status|--forget: only with --watch
--max-offset -1 status|--max-offset -1: it takes none, or a number of nanoseconds from 0 to 18446744073709551615
--max-delay none status|--max-delay none: it takes a number of nanoseconds from 0 to 18446744073709551615
--tai-utc 32768 status|--tai-utc 32768: it takes a number of seconds from -32768 to 32767
--settle 4294967296 status|--settle 4294967296: it takes a number of seconds from 0 to 4294967295
--tai-utc 37 collect|--tai-utc: only status takes it
--lines hall collect|--lines: only status takes it
--json --draw status|--json excludes --draw, --html, --openmetrics and --nagios
--draw --html status|--draw, --html, --openmetrics and --nagios exclude each other
--expect hall1 --expect hall2 status|--expect hall2: --expect hall1 is there already
--udp 10.9.9.20 --udp 10.9.9.30 status|--udp 10.9.9.30: --udp 10.9.9.20 is there already
-u /run/one -u /run/other status|--unix /run/other: --unix /run/one is there already
-T aabbccfffeddee01 -T aabbccfffeddee02 get PRIORITY1|--target aabbccfffeddee02: --target aabbccfffeddee01 is there already
--watch 1 --draw status|--watch excludes --draw, --html, --openmetrics and --nagios, unless there is a file for them"""


def refusals():
    for line in REFUSED.splitlines():
        words, wanted = line.split("|")
        done, _ = manage("-i", "near0", *words.split())
        check(f"manage {words} is refused", done.returncode == 2 and done.stdout == "" and done.stderr.startswith("ptpm-manage: " + wanted))


EDGES = ["", " ", "+", "-", "0", "-0", "+5", "-5", "-+5", "--5", " 5", "5 ", "5.0", "1e3", "0x10", "1_000", "٥", "none", "None", "--all",
         "32767", "32768", "-32768", "-32769", "86401", "4294967295", "4294967296", "1000000000000001", "18446744073709551615",
         "18446744073709551616", "-18446744073709551615", "+007", "-007", "0" * 40 + "7", "9" * 40]


def one_grammar():
    for option in ("--max-offset", "--max-delay", "--tai-utc", "--settle"):
        for text in EDGES:
            of_site = run(PROGRAM, "site", option, text, stdin=subprocess.DEVNULL).returncode
            own = run(MANAGE, option, text, "--version").returncode
            check(f"manage takes {option} {text!r} if ptpm site does", (of_site, own) in ((3, 0), (2, 2)))


REFUSED_BY_SITE = """--profile nothing|none of default, st2059-2, aes67 and gptp
--ignore changed,nothing|not the names of findings
--expect missing|missing: No such file or directory"""


def at_silent_clock(*words, **more):
    """What `status` does with the repository's `ptpm` at a socket, and whether a request comes there."""
    name = os.path.join(tempfile.mkdtemp(dir=work), "socket")
    with socket.socket(socket.AF_UNIX, socket.SOCK_DGRAM) as clock:
        clock.bind(name)
        done = run(MANAGE, "-u", name, *words, "status", env=WITH_OWN, cwd=work, **more)
        return done, bool(select.select([clock], [], [], 0)[0])


def refused_by_site():
    for line in REFUSED_BY_SITE.splitlines():
        words, wanted = line.split("|")
        for form, left in ("--watch 1 --output kept", (2, "")), ("--nagios", (3, f"PTP UNKNOWN - {NOT_ASKED}\n")):
            done, is_asked = at_silent_clock(*words.split(), *form.split())
            is_said = wanted in done.stderr and done.stderr.endswith(f"\nptpm-manage: {NOT_ASKED}\n")
            check(f"status {words} {form} is refused before anything is asked", (done.returncode, done.stdout) == left and is_said
                  and not is_asked and not os.path.exists(f"{work}/kept"))
    write(f"{work}/kept", "the look before\n")
    done = run(MANAGE, "-u", f"{work}/nobody", "--output", f"{work}/kept", "status", env=WITH_OWN)
    check("a look at which nothing was sent leaves the file as it was", done.returncode == 2 and text_in(f"{work}/kept") == "the look before\n")
    with open("/dev/full", "w") as full, socket.socket(socket.AF_UNIX, socket.SOCK_DGRAM) as clock:
        clock.bind(f"{work}/silent")
        words = [MANAGE, "-u", f"{work}/silent", "--nagios", "--once", "status"]
        done = subprocess.run(words, stdout=full, stderr=subprocess.DEVNULL, timeout=120, check=False, env=WITH_OWN)
    check("a plugin whose output is full ends as a plugin", done.returncode == 3)
    write(f"{work}/file", "")
    for path, said in ((f"{work}/file/ptp4l", "Not a directory"), (f"{work}/lacking/ptp4l", "its folder is missing")):
        done = run(MANAGE, "-u", path, "--nagios", "status", env=WITH_OWN)
        check(f"a plugin that has no socket ends as one: {said}", done.returncode == 3 and done.stdout.startswith(f"PTP UNKNOWN - {path}")
              and done.stdout.endswith(f": {said}\n"))
    write(f"{work}/inventory", f"0 {identity(1)} clock\n")
    done, is_asked = at_silent_clock("--profile", "gptp", "--once", "--expect", "inventory")
    check("status asks, and then reads an inventory", done.returncode == 3 and f"0 {identity(1)} absent\n" in done.stdout and is_asked)
    end, into = os.pipe()
    done, is_asked = at_silent_clock("--once", "--expect", f"/dev/fd/{end}", pass_fds=[end])
    check("an inventory in a pipe is refused before anything is asked", done.returncode == 2 and "not a pipe\n" in done.stderr and not is_asked)
    os.close(end)
    os.close(into)


def output_at_a_link():
    os.symlink("target", f"{work}/link")
    done, is_asked = at_silent_clock("--once", "--output", "link")
    check("a link that leads nowhere is refused", done.stderr == "ptpm-manage: --output link: it is a link: No such file or directory\n"
          and done.returncode == 2 and not is_asked and not os.path.exists(f"{work}/target"))
    with open(f"{work}/target", "x"):
        at_silent_clock("--once", "--output", "link")
    with open(f"{work}/target") as file:
        check("what a link leads to is replaced", file.read().endswith("no clock answered\n") and os.path.islink(f"{work}/link"))


def refuses():
    refusals()
    one_grammar()
    refused_by_site()
    output_at_a_link()
