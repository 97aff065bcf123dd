#!/usr/bin/env python3
"""Makes a capture for the benchmark: so many records over so many flows, the same for the same words.

    python3 bench/make_capture.py bench/out/mix.pcap --records 1000000 --flows 100000

Each flow is there, and a few flows have most of the packets, as on a real line. Most flows are TCP,
a quarter UDP; some are of other protocols or fragments, some stand behind one or two VLAN tags, and
one record in a hundred is an ARP request. A flow and the next one are the two directions of one
conversation. Frames are 60 to 1,500 bytes on the wire.
"""

import argparse
import random
import struct
import sys
from dataclasses import dataclass

MAGICS = {
    "le-micro": ("<", 0xA1B2C3D4, 1_000_000),
    "be-micro": (">", 0xA1B2C3D4, 1_000_000),
    "le-nano": ("<", 0xA1B23C4D, 1_000_000_000),
    "be-nano": (">", 0xA1B23C4D, 1_000_000_000),
}
START = 1_796_025_757  # seconds: 30 November 2026
SHORTEST, LONGEST = 60, 1_500  # bytes of a frame on the wire
FEWEST, MOST = 54, 256  # bytes captured of a frame that isn't captured whole; its headers always are
CHUNK = 50_000  # records that are made and written at a time

ETHERNET = bytes.fromhex("020000000001 020000000002")
IPV4, ARP, ARP_OF_IPV4 = b"\x08\x00", b"\x08\x06", 0x0800
TAGS = {0: b"", 1: b"\x81\x00\x00\x0a", 2: b"\x88\xa8\x00\x14\x81\x00\x00\x0a"}
PADDING = bytes(range(256)) * 6
# Acknowledgements and full segments are the most frequent.
WIRE_LENGTHS = [SHORTEST] * 40 + [LONGEST] * 30 + list(range(SHORTEST, LONGEST + 1, 48))


@dataclass
class Flow:
    """What the frames of a flow have in common. The total length stands between `before` and `behind`,
    and TCP's two sequence numbers between `behind` and `tail`."""

    before: bytes
    behind: bytes
    link: int  # bytes of the link header, 0 where the frame carries no IPv4
    tail: bytes = b""  # of TCP alone
    way: int = 0  # 1 for the answers
    sent: list | None = None  # the next sequence number of each direction, shared by both

    def frame(self, wire, padding):
        """A frame of so many bytes on the wire, of which so many behind the headers are captured."""
        length = (wire - self.link if self.link else ARP_OF_IPV4).to_bytes(2, "big")
        if not self.tail:
            return self.before + length + self.behind + PADDING[:padding]
        here, there = self.sent[self.way], self.sent[1 - self.way]
        self.sent[self.way] = (here + wire - self.headers()) % 2**32
        numbers = here << 32 | there
        return self.before + length + self.behind + numbers.to_bytes(8, "big") + self.tail + PADDING[:padding]

    def headers(self):
        return len(self.before) + 2 + len(self.behind) + (8 + len(self.tail) if self.tail else 0)


def arp_flow():
    """The one flow that has no addresses."""
    request = bytes.fromhex("0001080006040001 020000000002 0a000001 000000000000 0a0000fe")
    return Flow(ETHERNET + ARP + request[:2], request[4:], 0)


def ipv4_flow(number, talks):
    """A flow with addresses. Two neighbouring numbers are the two directions of a conversation."""
    talk, way = divmod(number, 2)
    kind = talk * 17 % 50
    client = struct.pack(">I", 0x0A000000 + talk * 40_503 % 2**24)  # 10.0.0.0, each its own
    server = struct.pack(">I", 0xC6120000 + talk * 7 % 5_000)  # 198.18.0.0
    client_port, server_port = 1_024 + talk * 31 % 60_000, 443
    protocol, fragment, rest, tail = 6, 0, b"", struct.pack(">BBHHH", 0x50, 0x10, 65_535, 0, 0)
    if kind < 12:
        protocol, server_port, rest, tail = 17, 53, struct.pack(">HH", 40, 0), b""
    elif kind == 48:
        protocol, fragment, tail = 17, 185, b""
    elif kind == 49:
        protocol, tail = 1, b""
    link = ETHERNET + TAGS[{10: 1, 20: 1, 30: 2}.get(kind, 0)] + IPV4
    ip = struct.pack(">HHBBH", number % 65_536, fragment, 64, protocol, 0)
    addresses, ports = client + server, struct.pack(">HH", client_port, server_port)
    if way == 1:
        addresses, ports = server + client, ports[2:] + ports[:2]
    behind = ip + addresses + ports + rest
    return Flow(link + b"\x45\x00", behind, len(link), tail, way, talks[talk])


def flow_of_each_record(records, flows, choose):
    """A list of flow numbers: each flow once, the others so that the low numbers come often."""
    order = list(range(flows))
    for _ in range(records - flows):
        is_other = flows == 1 or choose.random() < 0.01
        order.append(0 if is_other else 1 + int((flows - 1) * choose.random() ** 3))
    choose.shuffle(order)
    return order


def write_capture(out, options):
    byte_order, magic, second = MAGICS[options.magic]
    choose = random.Random(options.seed)
    talks = [[1, 1] for _ in range(options.flows // 2 + 1)]
    flows = [arp_flow()] + [ipv4_flow(number, talks) for number in range(options.flows - 1)]
    record_header = struct.Struct(byte_order + "IIII").pack
    out.write(struct.pack(byte_order + "IHHIIII", magic, 2, 4, 0, 0, 262_144, 1))
    flow_numbers = flow_of_each_record(options.records, options.flows, choose)
    step = second // 100_000  # a record each 10 microseconds
    for first in range(0, options.records, CHUNK):
        pieces = []
        for number, chosen in enumerate(flow_numbers[first : first + CHUNK], first):
            flow = flows[chosen]
            headers = flow.headers()
            wire = max(headers, choose.choice(WIRE_LENGTHS) if flow.link else SHORTEST)
            captured = wire
            if not options.whole:
                captured = min(wire, max(headers, FEWEST + int(choose.random() * (MOST - FEWEST + 1))))
            seconds, fraction = divmod(number * step, second)
            pieces.append(record_header(START + seconds, fraction, captured, wire))
            pieces.append(flow.frame(wire, captured - headers))
        out.write(b"".join(pieces))


def main():
    words = argparse.ArgumentParser(description="Makes a capture for the benchmark.")
    words.add_argument("path", help="the capture to be written")
    words.add_argument("--records", type=int, default=1_000_000)
    words.add_argument("--flows", type=int, default=100_000)
    words.add_argument("--magic", choices=MAGICS, default="le-micro")
    words.add_argument("--whole", action="store_true", help="whole frames, not 54 to 256 bytes of each")
    words.add_argument("--seed", type=int, default=1)
    options = words.parse_args()
    if not 1 <= options.flows <= options.records:
        sys.exit("make_capture: as many records as flows, and one flow, at least")
    with open(options.path, "wb") as out:
        write_capture(out, options)


if __name__ == "__main__":
    main()
