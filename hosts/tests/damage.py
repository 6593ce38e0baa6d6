"""damage.py SOCKET COUNT: COUNT requests to a clock's Unix socket, every second one with octets changed or cut off."""
import random
import socket
import sys

path, count = sys.argv[1], int(sys.argv[2])
random.seed(1588)
IDS = [0x0000, 0x0002, 0x2000, 0x2001, 0x2002, 0x2003, 0x2004, 0x2005, 0x2006, 0x2009, 0x200A, 0x200B, 0x200D, 0x200E,
       0x2010, 0x2011, 0x6000, 0x6001, 0x2FFF]


def request(number):
    """A GET, SET or COMMAND of the manager 0011223344556677/1 to the clock aabbccfffeddee01."""
    action, data = random.choice([(0, b""), (1, bytes([random.randrange(256), 0])), (3, b"")])
    identifier, port = random.choice(IDS), random.choice([1, 0xFFFF])
    size = 54 + len(data)
    return (bytes([0x0D, 0x12]) + size.to_bytes(2, "big") + bytes(16)
            + bytes.fromhex("00112233445566770001") + number.to_bytes(2, "big") + bytes([4, 0x7F])
            + bytes.fromhex("aabbccfffeddee01") + port.to_bytes(2, "big") + bytes([1, 1, action, 0])
            + (1).to_bytes(2, "big") + (2 + len(data)).to_bytes(2, "big") + identifier.to_bytes(2, "big") + data)


def damaged(octets):
    octets = bytearray(octets)
    for _ in range(random.randrange(1, 6)):
        octets[random.randrange(len(octets))] = random.randrange(256)
    return bytes(octets[:random.randrange(len(octets) + 1)]) if random.randrange(3) == 0 else bytes(octets)


out = socket.socket(socket.AF_UNIX, socket.SOCK_DGRAM)
for k in range(count):
    octets = request(k // 3 % 65536)
    out.sendto(damaged(octets) if k % 2 else octets, path)
