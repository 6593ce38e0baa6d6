"""One message where clocks are joined by more than one way: ptpm-clock, and the hosts that the documents give as examples."""
import os
import select
import socket
import subprocess
import time

import attacking
from attack_wire import message_of
from attacking import CLOCK, EVERY, HOME, MANAGER, OTHER, check, message, run, work

TOP = os.path.dirname(HOME)
AGENT_IN_RUST = os.path.join(TOP, "bindings/rust/target/debug/examples/agent")


def clock_with(*words):
    """How ptpm-clock is called, for an identity and its interfaces."""
    return lambda identity, interfaces: [CLOCK, *words, identity, *interfaces]


class Site:
    """Links and clocks, each clock in a network of its own, and what is counted on the links."""

    def __init__(self, links, clocks, called):
        self.links, self.names, self.running = links, [], []
        self.counted = {}
        for link in links:
            run("ip", "link", "add", link, "type", "bridge", "mcast_snooping", "0")
            run("ip", "link", "set", link, "up")
        for number, ports in enumerate(clocks):
            name = f"ptpm-site-{os.getpid()}-{number}"
            self.names.append(name)
            run("ip", "netns", "add", name)
            for port, link in enumerate(ports):
                self.plug(name, number, port, link)
        run("ip", "addr", "add", "10.6.0.100/16", "dev", links[0])
        run("ip", "-6", "addr", "add", "fe80::100/64", "dev", links[0], "nodad")
        time.sleep(2)
        for number, ports in enumerate(clocks):
            self.running.append(start_in(self.names[number], *called(f"aabbccfffeddee{16 + number:02x}", [f"p{port}" for port in range(len(ports))])))
        time.sleep(0.5)

    def plug(self, name, number, port, link):
        outside = f"{link}n{number}p{port}"
        run("ip", "link", "add", "name", outside, "type", "veth", "peer", "name", f"p{port}", "netns", name)
        run("ip", "link", "set", outside, "master", link, "up")
        run("ip", "-n", name, "addr", "add", f"10.6.{number + 1}.{port + 1}/16", "dev", f"p{port}")
        run("ip", "-n", name, "link", "set", f"p{port}", "up")
        heard = socket.socket(socket.AF_PACKET, socket.SOCK_RAW, socket.htons(3))
        heard.bind((outside, 3))
        heard.setsockopt(socket.SOL_SOCKET, 33, 1 << 26)            # SO_RCVBUFFORCE
        self.counted[heard] = link

    def messages(self, wait=2):
        """The messages that the clocks send within a time."""
        found, end = [], time.monotonic() + wait
        while (left := end - time.monotonic()) > 0:
            for heard in select.select(list(self.counted), [], [], left)[0]:
                frame, place = heard.recvfrom(65536)
                found += [message_of(frame)] if place[2] != socket.PACKET_OUTGOING and message_of(frame) is not None else []
        return found

    def ask(self, octets, six=False):
        """One datagram of a stranger on the first link."""
        kind, group = (socket.AF_INET6, "ff0e::181") if six else (socket.AF_INET, "224.0.1.129")
        with socket.socket(kind, socket.SOCK_DGRAM) as out:
            out.setsockopt(socket.SOL_SOCKET, socket.SO_BINDTODEVICE, self.links[0].encode())
            out.bind((f"fe80::100%{self.links[0]}" if six else "10.6.0.100", 0))
            out.sendto(octets, (group, 320))

    def remove(self):
        for process in self.running:
            process.terminate()
            process.wait()
        for heard in self.counted:
            heard.close()
        for name in self.names:
            run("ip", "netns", "del", name)
        for link in self.links:
            run("ip", "link", "del", link)


def start_in(network, *words):
    process = subprocess.Popen(["ip", "netns", "exec", network, *words], stdout=subprocess.DEVNULL, stderr=subprocess.DEVNULL)
    attacking.started.append(process)
    return process


def storm(site, what, most, six=False):
    """One GET of a stranger with every hop there is: how many messages it makes."""
    for number, (target, limit) in enumerate([(OTHER, 8), (EVERY, most)]):
        site.messages(0.1)
        site.ask(message(number, target=target, starting=255, hops=255), six)
        count = len(site.messages())
        print(f"{what}: a GET to {'another clock' if target == OTHER else 'every clock'} makes {count} messages in 2 s")
        check(f"{what}: no storm", 0 < count <= limit)


def storms():
    """Where clocks are joined by more than one way."""
    for what, links, clocks, words, most in [
            ("two clocks on three links", ["la", "lb", "lc"], [["la", "lb", "lc"]] * 2, (), 40),
            ("two clocks with both interfaces in one network", ["la"], [["la", "la"]] * 2, (), 40),
            ("a clock with two ports on one link of IPv6", ["la"], [["la", "la"]], ("-6",), 20)]:
        site = Site(links, clocks, clock_with(*words))
        storm(site, what, most, "-6" in words)
        site.remove()


def host_of_two_ports():
    """The host of examples/two_ports.c, built over examples/device.c."""
    program = os.path.join(work, "two_ports")
    run(os.environ.get("CC", "cc"), "-std=c99", "-Wall", "-Wextra", "-Wpedantic", "-Werror", "-I", HOME,
        os.path.join(TOP, "examples/two_ports.c"), os.path.join(TOP, "examples/device.c"), os.path.join(HOME, "libptpm.a"), "-o", program)
    return program


def what_a_host_passes_on(what, called):
    """Two of an example that are joined by two links: what goes round, and what reaches the one behind."""
    site = Site(["la", "lb"], [["la", "lb"]] * 2, called)
    storm(site, f"two of {what} on two links", 40)
    site.remove()
    site = Site(["la", "lb"], [["la", "lb"], ["lb"]], lambda identity, interfaces:
                called(identity, interfaces) if len(interfaces) > 1 else clock_with()(identity, interfaces))
    answered = []
    for hops in (0, 1):
        site.messages(0.1)
        site.ask(message(9, starting=hops, hops=hops))
        answered.append({octets[20:28].hex() for octets in site.messages(0.4) if octets[46] & 15 == 2})
    check(f"{what} answers, and passes on what it has not passed on: {answered}", [len(each) for each in answered] == [1, 2])
    site.remove()


def examples():
    """The hosts in C."""
    two_ports, block_host = host_of_two_ports(), os.path.join(HOME, "block_host")
    what_a_host_passes_on("two_ports", lambda identity, interfaces: [two_ports, identity, MANAGER + "/1", *interfaces])
    what_a_host_passes_on("block_host", lambda identity, interfaces: [block_host, *interfaces])


def agent_in_rust():
    """The agent of the binding for Rust, if it is built."""
    if os.path.exists(AGENT_IN_RUST):
        what_a_host_passes_on("the agent in Rust", lambda identity, interfaces: [AGENT_IN_RUST, identity, *interfaces])


ATTACKS = [storms, examples, agent_in_rust]
