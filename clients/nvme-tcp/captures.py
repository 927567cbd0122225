"""TCP connections from packet captures: pcap and pcapng; Ethernet with VLANs, Linux cooked (both versions), loopback and raw IP; IPv4 and IPv6. A capture is read as a whole."""

from bisect import bisect_left, bisect_right, insort
from dataclasses import dataclass, field
from struct import unpack_from

ETHERNET, NULL, LOOP, COOKED, COOKED_2, RAW = 1, 0, 108, 113, 276, (12, 14, 101, 228, 229)
IPV4, IPV6, VLANS, TCP = 0x0800, 0x86DD, (0x8100, 0x88A8, 0x9100), 6
FIN, SYN, ACK = 1, 2, 16
# No sender is so many bytes ahead of what was acknowledged.
FAR = 1 << 26


class NotACapture(Exception):
    """The bytes are no capture that this reads."""


@dataclass
class Packet:
    time: int  # nanoseconds
    link: int
    data: memoryview
    length: int  # on the wire; `data` may be less


def of_pcap(file, notes):
    magic = bytes(file[:4])
    order = "<" if magic in (b"\xd4\xc3\xb2\xa1", b"\x4d\x3c\xb2\xa1") else ">"
    scale = 1 if magic in (b"\x4d\x3c\xb2\xa1", b"\xa1\xb2\x3c\x4d") else 1000
    (link,) = unpack_from(order + "I", file, 20)
    at = 24
    while at + 16 <= len(file):
        seconds, part, kept, length = unpack_from(order + "IIII", file, at)
        if at + 16 + kept > len(file):
            break
        yield Packet(seconds * 10**9 + part * scale, link & 0xFFFF, file[at + 16 : at + 16 + kept], length)
        at += 16 + kept
    if at != len(file):
        notes.append("the capture ends within a packet")


def options_of(order, file, at, end):
    """The options of a block of pcapng."""
    found = {}
    while at + 4 <= end:
        code, length = unpack_from(order + "HH", file, at)
        if code == 0:
            break
        found[code] = bytes(file[at + 4 : at + 4 + length])
        at += 4 + (length + 3) // 4 * 4
    return found


def of_pcapng(file, notes):
    at, order, interfaces = 0, "<", []
    while at + 12 <= len(file):
        if bytes(file[at : at + 4]) == b"\x0a\x0d\x0d\x0a":
            order = "<" if bytes(file[at + 8 : at + 12]) == b"\x4d\x3c\x2b\x1a" else ">"
            interfaces = []
        kind, length = unpack_from(order + "II", file, at)
        if length < 12 or length % 4 or at + length > len(file):
            break
        body, end = at + 8, at + length - 4
        if kind == 1 and length >= 20:
            options = options_of(order, file, body + 8, end)
            resolution = options.get(9, b"\x06")[0]
            ticks = 2 ** (resolution & 127) if resolution & 128 else 10**resolution
            (offset,) = unpack_from(order + "q", options[14]) if len(options.get(14, b"")) == 8 else (0,)
            interfaces.append((unpack_from(order + "H", file, body)[0], ticks, offset))
        elif kind == 6 and length >= 32:
            interface, high, low, kept, whole = unpack_from(order + "IIIII", file, body)
            if interface >= len(interfaces) or body + 20 + kept > end:
                break
            link, ticks, offset = interfaces[interface]
            yield Packet((high << 32 | low) * 10**9 // ticks + offset * 10**9, link, file[body + 20 : body + 20 + kept], whole)
        elif kind == 5 and length >= 24:
            dropped = sum(int.from_bytes(it, "little" if order == "<" else "big") for code, it in options_of(order, file, body + 12, end).items() if code in (5, 7))
            if dropped:
                notes.append(f"the capture says that {dropped} packets weren't taken")
        elif kind == 3:
            notes.append("a packet without a time is passed over")
        at += length
    if at != len(file):
        notes.append("the capture ends within a block, or has one that is spoiled")


def packets(file, notes):
    if len(file) >= 24 and bytes(file[:4]) in (b"\xd4\xc3\xb2\xa1", b"\xa1\xb2\xc3\xd4", b"\x4d\x3c\xb2\xa1", b"\xa1\xb2\x3c\x4d"):
        return of_pcap(file, notes)
    if len(file) >= 12 and bytes(file[:4]) == b"\x0a\x0d\x0d\x0a":
        return of_pcapng(file, notes)
    raise NotACapture("it is neither pcap nor pcapng")


def internet(packet):
    """Where the IP packet begins, or `None`."""
    data, link = packet.data, packet.link
    if link in (NULL, LOOP):
        at, kind = 4, None
    elif link in RAW:
        at, kind = 0, None
    elif link in (ETHERNET, COOKED, COOKED_2):
        at, where = {ETHERNET: (14, 12), COOKED: (16, 14), COOKED_2: (20, 0)}[link]
        if len(data) < at:
            return None
        (kind,) = unpack_from(">H", data, where)
        while kind in VLANS and len(data) >= at + 4:
            (kind,) = unpack_from(">H", data, at + 2)
            at += 4
    else:
        raise NotACapture(f"its link layer, {link}, isn't known here")
    return at if len(data) > at and kind in (None, IPV4, IPV6) else None


@dataclass
class Segment:
    time: int
    place: int  # of the packet in the capture
    ends: tuple  # the sender's address and port, and the receiver's
    sequence: int
    acknowledged: int
    flags: int
    data: memoryview
    length: int


def segment_of(packet, place, notes):
    """The TCP segment of a packet, or `None`."""
    data, at = packet.data, internet(packet)
    if at is None:
        return None
    behind = packet.length
    if data[at] >> 4 == 4 and len(data) >= at + 20:
        total, fragment, protocol = unpack_from(">H", data, at + 2)[0], unpack_from(">H", data, at + 6)[0] & 0x3FFF, data[at + 9]
        addresses = bytes(data[at + 12 : at + 16]), bytes(data[at + 16 : at + 20])
        behind = at + total if total else behind
        at += (data[at] & 15) * 4
    elif data[at] >> 4 == 6 and len(data) >= at + 40:
        total, protocol, fragment = unpack_from(">H", data, at + 4)[0], data[at + 6], 0
        addresses = bytes(data[at + 8 : at + 24]), bytes(data[at + 24 : at + 40])
        at += 40
        behind = at + total if total else behind
        while protocol in (0, 43, 44, 51, 60) and len(data) >= at + 8:
            fragment |= unpack_from(">H", data, at + 2)[0] & 0xFFF9 if protocol == 44 else 0
            protocol, at = data[at], at + (8 if protocol == 44 else 4 * (data[at + 1] + 2) if protocol == 51 else 8 * (data[at + 1] + 1))
    else:
        return None
    if protocol != TCP:
        return None
    if fragment:
        notes.append("IP fragments of TCP are passed over")
        return None
    if len(data) < at + 20:
        return None
    source, target, sequence, acknowledged, offset, flags = unpack_from(">HHIIBB", data, at)
    at += (offset >> 4) * 4
    return Segment(packet.time, place, ((addresses[0], source), (addresses[1], target)), sequence, acknowledged, flags, data[at:behind], max(0, behind - at))


@dataclass
class Stream:
    """What one side of a connection sent."""

    base: int = None  # the sequence number of its first byte
    segments: list = field(default_factory=list)
    acknowledged: list = field(default_factory=list)  # by the other side
    fin: int = None

    def place_of(self, sequence, near):
        return near + ((sequence - self.base - near + (1 << 31)) & 0xFFFFFFFF) - (1 << 31)

    def assemble(self, notes, name):
        """Puts the bytes together: `bytes`, where holes are zeroes; `starts`, the places at which a piece or a hole begins, and for each its time, or `None` of a hole, and whether it came late: when later bytes
        had been seen, so that it may have been sent before without being seen. `fronts` are the places of the others, which are seen in the order in which they were sent."""
        pieces, high, differ, self.fronts, self.front_times = [], 0, 0, [], []
        for segment in self.segments:
            begin = self.place_of(segment.sequence, high)
            data = segment.data if begin >= 0 else segment.data[-begin:]
            if segment.flags & FIN:
                self.fin = begin + segment.length
            begin = max(begin, 0)
            if begin > high + FAR:
                notes.append(f"{name}: a segment far from all others is passed over")
                continue
            if not data or (len(data) == 1 and begin == high - 1):  # a probe whether the other side is alive has a byte of no meaning
                continue
            late = min(len(data), max(0, high - begin))
            if late:
                differ += put(pieces, begin, data[:late], segment.time, True)
            if late < len(data):
                put(pieces, begin + late, data[late:], segment.time, False)
                self.fronts.append(begin + late), self.front_times.append(segment.time)
                high = begin + len(data)
        near, told = 0, 0
        for number in self.acknowledged:
            near = self.place_of(number, near)
            told = max(told, near)
        end = max(high, min(told, high + FAR) if self.fin is None else min(told, self.fin))
        self.bytes, self.starts, self.times, self.late, at = bytearray(end), [], [], [], 0
        for begin, data, time, late in [*pieces, (end, b"", None, False)]:
            if begin > at:
                self.starts.append(at), self.times.append(None), self.late.append(True)
            if data:
                self.bytes[begin : begin + len(data)] = data
                self.starts.append(begin), self.times.append(time), self.late.append(late)
            at = begin + len(data)
        if differ:
            notes.append(f"{name}: {differ} bytes were sent again with other values, and the first ones are taken")

    def times_of(self, begin, end):
        """The times of the pieces that bytes lie in, with `None` for holes."""
        return self.times[bisect_right(self.starts, begin) - 1 : bisect_left(self.starts, end)]

    def not_before(self, at):
        """A time before which the byte at this place wasn't sent; `None` where nothing was seen before it."""
        piece = bisect_right(self.starts, at) - 1
        if 0 <= piece < len(self.late) and not self.late[piece]:
            return self.times[piece]
        front = bisect_left(self.fronts, at) - 1
        return self.front_times[front] if front >= 0 else None


def put(pieces, begin, data, time, late):
    """Puts what isn't there yet among the pieces, and says how many bytes were there with other values."""
    end, differ = begin + len(data), 0
    if not pieces or pieces[-1][0] + len(pieces[-1][1]) <= begin:
        pieces.append((begin, data, time, late))
        return 0
    index = max(0, bisect_right(pieces, begin, key=lambda it: it[0]) - 1)
    at, more = begin, []
    while at < end and index < len(pieces):
        there, kept, *_ = pieces[index]
        if there + len(kept) > at:
            if there >= end:
                break
            if there > at:
                more.append((at, data[at - begin : there - begin], time, late))
                at = there
            until = min(end, there + len(kept))
            same = bytes(kept[at - there : until - there]), bytes(data[at - begin : until - begin])
            differ += sum(one != other for one, other in zip(*same)) if same[0] != same[1] else 0
            at = until
        index += 1
    if at < end:
        more.append((at, data[at - begin :], time, late))
    for piece in more:
        insort(pieces, piece, key=lambda it: it[0])
    return differ


@dataclass
class Connection:
    began: int
    client: tuple = None
    server: tuple = None
    sent: dict = None  # a stream for each end

    @property
    def has_begin(self):
        return self.client is not None

    @property
    def name(self):
        return f"{address_of(self.client)} to {address_of(self.server)}"


def address_of(end):
    """An end of a connection as text."""
    address, port = end
    if len(address) == 4:
        return f"{'.'.join(map(str, address))}:{port}"
    return f"[{':'.join(address[at : at + 2].hex() for at in range(0, 16, 2))}]:{port}"


def connections(file, notes):
    """The connections of a capture in the order in which they began, and by how much its times went back at most."""
    known, found, latest, back = {}, [], 0, 0
    for place, packet in enumerate(packets(file, notes)):
        back = max(back, latest - packet.time)
        latest = max(latest, packet.time)
        segment = segment_of(packet, place, notes)
        if not segment:
            continue
        key = frozenset(segment.ends)
        it, (sender, receiver) = known.get(key), segment.ends
        is_first = segment.flags & (SYN | ACK) == SYN
        if not it or (is_first and it.sent[sender].base != (segment.sequence + 1) & 0xFFFFFFFF):
            it = known[key] = Connection(segment.time, sent={end: Stream() for end in segment.ends})
            found.append(it)
        own, other = it.sent[sender], it.sent[receiver]
        if segment.flags & SYN:
            it.client, it.server = (sender, receiver) if is_first else (receiver, sender)
            own.base = (segment.sequence + 1) & 0xFFFFFFFF
        if segment.flags & ACK:
            # Who has just sent or got a SYN acknowledges the other's SYN alone, if that isn't in the capture.
            if other.base is None and own.base is not None:
                other.base = segment.acknowledged
            other.acknowledged.append(segment.acknowledged)
        if not segment.flags & SYN and (segment.length or segment.flags & FIN):
            own.segments.append(segment)
    return found, back
