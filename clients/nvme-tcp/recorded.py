"""Captures for tests, made without tcpdump: a relay between hosts and a controller notes what passes, and its notes are spelled as packets of many kinds."""

import random
import socket
import threading
import time
from dataclasses import dataclass, replace
from struct import pack

from captures import ACK, COOKED, COOKED_2, ETHERNET, FIN, NULL, SYN


class Relay:
    """Takes connections at `address`, and hands all on to another address. `passed` has what passed, in its order: a time, the connection, whether the host sent it, and bytes, none where
    the connection began or, of both sides, ended."""

    def __init__(self, target):
        host, port = target.rsplit(":", 1)
        self.target, self.passed, self.lock = (host.strip("[]"), int(port)), [], threading.Lock()
        self.listener = socket.create_server(("127.0.0.1", 0), backlog=128)
        self.address = "127.0.0.1:%d" % self.listener.getsockname()[1]
        self.count = 0
        threading.Thread(target=self.serve, daemon=True).start()

    def note(self, connection, is_host, data):
        with self.lock:
            self.passed.append((time.time_ns(), connection, is_host, data))

    def serve(self):
        while True:
            try:
                near, _ = self.listener.accept()
            except OSError:
                return
            far, self.count = socket.create_connection(self.target), self.count + 1
            for it in (near, far):
                it.setsockopt(socket.IPPROTO_TCP, socket.TCP_NODELAY, 1)
            self.note(self.count, True, b"")
            for pair in ((near, far, True), (far, near, False)):
                threading.Thread(target=self.hand_on, args=(self.count, *pair), daemon=True).start()

    def hand_on(self, connection, source, sink, is_host):
        try:
            while data := source.recv(65536):
                self.note(connection, is_host, data)
                sink.sendall(data)
        except OSError:
            pass
        self.note(connection, is_host, b"")
        try:
            sink.shutdown(socket.SHUT_WR)
        except OSError:
            pass

    def close(self):
        self.listener.close()


@dataclass
class Style:
    """How packets are spelled."""

    link: int = ETHERNET
    six: bool = False  # IPv6
    vlans: int = 0
    next_generation: bool = False  # pcapng
    nanoseconds: bool = True
    big: bool = False  # the file's numbers are big endian
    segment: int = 1448
    begin: int = 0xFFFFF000  # sequence numbers begin here, and soon at 0 again
    kept: int = 1 << 18  # bytes of each packet


@dataclass(frozen=True)
class Part:
    """A segment."""

    time: int
    connection: int
    is_host: bool
    sequence: int
    acknowledged: int
    flags: int
    data: bytes = b""


def parts_of(passed, style, chance=random.Random(1)):
    """The segments of what passed."""
    parts, sent, ended = [], {}, set()

    def add(time, connection, is_host, flags, data=b"", takes=0):
        own, other = sent[connection, is_host], sent[connection, not is_host]
        acknowledged = 0 if flags == SYN else other & 0xFFFFFFFF
        parts.append(Part(time, connection, is_host, own & 0xFFFFFFFF, acknowledged, flags, data))
        sent[connection, is_host] += len(data) + takes

    for time, connection, is_host, data in passed:
        if (connection, is_host) not in sent:
            sent[connection, True], sent[connection, False] = style.begin, style.begin + 77
            add(time, connection, True, SYN, takes=1), add(time, connection, False, SYN | ACK, takes=1), add(time, connection, True, ACK)
        elif not data and (connection, is_host) not in ended:
            ended.add((connection, is_host))
            add(time, connection, is_host, FIN | ACK, takes=1)
        for at in range(0, len(data), style.segment):
            add(time, connection, is_host, ACK, data[at : at + style.segment])
    return parts


def packet(part, style):
    """A segment with its headers."""
    ports = (40000 + part.connection, 4420) if part.is_host else (4420, 40000 + part.connection)
    tcp = pack(">HHIIBBHHH", *ports, part.sequence, part.acknowledged, 8 << 4, part.flags, 65535, 0, 0) + b"\x01" * 12 + part.data
    host, controller = (bytes(15) + b"\x01", bytes(15) + b"\x02") if style.six else (b"\x0a\0\0\x01", b"\x0a\0\0\x02")
    ends = host + controller if part.is_host else controller + host
    if style.six:
        # A hop-by-hop header with padding comes first.
        kind, internet = 0x86DD, pack(">IHBB", 6 << 28, len(tcp) + 8, 0, 64) + ends + b"\x06\0\x01\x04\0\0\0\0"
    else:
        kind, internet = 0x0800, pack(">BBHHHBBH", 0x45, 0, 20 + len(tcp), 0, 0x4000, 64, 6, 0) + ends
    tags = b"".join(pack(">HH", 7, kind if last else 0x8100) for last in [place == style.vlans - 1 for place in range(style.vlans)])
    kind = 0x8100 if style.vlans else kind
    front = {
        ETHERNET: bytes(12) + pack(">H", kind),
        COOKED: bytes(14) + pack(">H", kind),
        COOKED_2: pack(">H", kind) + bytes(18),
        NULL: pack("<I", 30 if style.six else 2),
    }.get(style.link, b"")
    padding = bytes(max(0, 60 - len(front + tags + internet + tcp))) if style.link == ETHERNET else b""
    return front + tags + internet + tcp + padding


def capture_of(parts, style):
    """A capture file of the segments."""
    order, unit = ">" if style.big else "<", 1 if style.nanoseconds else 1000
    if style.next_generation:
        options = pack(order + "HHB3xHH", 9, 1, 9 if style.nanoseconds else 6, 0, 0)
        block = lambda kind, body: pack(order + "II", kind, 12 + len(body)) + body + pack(order + "I", 12 + len(body))
        yield block(0x0A0D0D0A, pack(order + "IHHq", 0x1A2B3C4D, 1, 0, -1))
        yield block(1, pack(order + "HHI", style.link, 0, 0) + options)
    else:
        yield pack(order + "IHHiIII", 0xA1B23C4D if style.nanoseconds else 0xA1B2C3D4, 2, 4, 0, 0, 1 << 18, style.link)
    for part in parts:
        whole = packet(part, style)
        kept = whole[: style.kept]
        if style.next_generation:
            ticks = part.time // unit
            yield block(6, pack(order + "IIIII", 0, ticks >> 32, ticks & 0xFFFFFFFF, len(kept), len(whole)) + kept + bytes(-len(kept) % 4))
        else:
            yield pack(order + "IIII", part.time // 10**9, part.time % 10**9 // unit, len(kept), len(whole)) + kept


def disturbed(parts, chance):
    """The same segments, of which in the second half some come out of order, again, or again as one with what is before them. What comes out of order may have been sent long
    before, which could hide the quiet moment after a fill."""
    parts = list(parts)
    for place in range(len(parts) // 2, len(parts)):
        one, other = parts[place - 1], parts[place]
        if not (one.data and other.data) or (one.connection, one.is_host) != (other.connection, other.is_host):
            continue
        what = chance.randrange(6)
        if what == 0:
            parts[place - 1], parts[place] = replace(other, time=one.time), replace(one, time=other.time)
        elif what == 1 and (one.sequence + len(one.data)) & 0xFFFFFFFF == other.sequence:
            parts[place] = replace(other, sequence=one.sequence, data=one.data + other.data)
    again = [(place, part) for place, part in enumerate(parts) if place >= len(parts) // 2 and part.data and not chance.randrange(20)]
    for place, part in reversed(again):
        later = min(len(parts) - 1, place + chance.randrange(1, 9))
        parts.insert(later + 1, replace(part, time=parts[later].time))
    return parts
