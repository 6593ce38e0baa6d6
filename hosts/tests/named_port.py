#!/usr/bin/env python3
"""hosts/tests/named_port.py PATH: at the Unix socket PATH a clock that answers a request to it alone only if its port 1 is named, as a
ptpd does. GETs of PRIORITY1, which is 77, and of DEFAULT_DATA_SET are answered, and nothing else is."""
import socket
import sys

IDENTITY = bytes.fromhex("aabbccfffeddee01")
PORT = (1).to_bytes(2, "big")
VALUES = {0x2005: bytes([77, 0]), 0x2000: bytes.fromhex("000000014dfffeffff80") + IDENTITY + bytes(2)}


def answer(request):
    """The RESPONSE to a request (IEEE 1588-2019, 15.4), or None."""
    if len(request) < 54 or request[34:44] != IDENTITY + PORT or request[46] != 0:
        return None
    value = VALUES.get(int.from_bytes(request[52:54], "big"))
    if value is None:
        return None
    tlv = (1).to_bytes(2, "big") + (2 + len(value)).to_bytes(2, "big") + request[52:54] + value
    head = request[:2] + (48 + len(tlv)).to_bytes(2, "big") + request[4:20]
    return head + IDENTITY + PORT + request[30:34] + request[20:30] + bytes([0, 0, 2, 0]) + tlv


def main():
    with socket.socket(socket.AF_UNIX, socket.SOCK_DGRAM) as clock:
        clock.bind(sys.argv[1])
        while True:
            request, asker = clock.recvfrom(1500)
            said = answer(request)
            if said is not None:
                clock.sendto(said, asker)


main()
