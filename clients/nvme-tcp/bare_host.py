"""An NVMe/TCP host in Python for tests of a controller: it sends what it is told to, right or wrong, and waits for one answer after another."""

import socket
from struct import pack, pack_into, unpack_from

from pdus import *

SUBSYSTEM, HOST = "nqn.2026-11.org.zalkvorn:one", "nqn.2014-08.org.nvmexpress:uuid:62617265-686f-7374-8000-000000000001"
DISCOVERY = "nqn.2014-08.org.nvmexpress.discovery"
IN_CAPSULE, TRANSPORT, ANY_CONTROLLER = 0x01, 0x5A, 0xFFFF
ABORT, EVENT_REQUEST = 0x08, 0x0C


class Lost(Exception):
    """The connection has ended."""


class Terminated(Exception):
    """The controller ended the connection by C2HTermReq: its fatal error status, its information, and the header that it repeats."""


def entry_of(opcode, cid=1, nsid=0, fuse=0, length=0, kind=TRANSPORT, offset=0, **fields):
    """An entry. Further fields are named by their offset and size, as at40_8=LBA."""
    entry = bytearray(64)
    pack_into("<BBHI", entry, 0, opcode, 0x40 | fuse, cid, nsid)
    pack_into("<QIxxxB", entry, 24, offset, length, kind)
    for name, value in fields.items():
        at, size = map(int, name[2:].split("_"))
        entry[at : at + size] = value.to_bytes(size, "little")
    return bytes(entry)


def io(opcode, lba=0, blocks=1, cid=1, nsid=1, size=512, **how):
    """An entry of an I/O command on blocks. Its SGL is as long as its data, unless `how` says otherwise."""
    has_data = opcode in (WRITE, READ, COMPARE)
    how.setdefault("length", blocks * size if has_data else 0)
    return entry_of(opcode, cid, nsid, at40_8=lba, at48_2=blocks - 1, **how)


class Host:
    """A connection to a controller; a queue once it is connected."""

    def __init__(self, address, terms=None, alignment=0):
        """Without `terms` ICReq isn't sent."""
        host, port = address.rsplit(":", 1)
        self.socket = socket.create_connection((host.strip("[]"), int(port)), timeout=60)
        self.socket.setsockopt(socket.IPPROTO_TCP, socket.TCP_NODELAY, 1)
        self.got, self.terms, self.number = bytearray(), Terms(), 0
        if terms:
            self.raw(self.icreq(terms, alignment))
            kind, header, _ = self.pdu()
            assert kind == ICRESP and unpack_from("<HBB", header, 8) == (0, 0, terms.header_digest | terms.data_digest << 1), header
            self.terms = terms

    def icreq(self, terms=Terms(), alignment=0, version=0):
        return spelled(ICREQ, pack("<HBBI", version, alignment, terms.header_digest | terms.data_digest << 1, 0))

    def close(self):
        self.socket.close()

    def __enter__(self):
        return self

    def __exit__(self, *_what):
        self.close()

    def raw(self, data):
        try:
            self.socket.sendall(data)
        except OSError:
            pass  # what was answered before is still to be read

    def send(self, kind, fields=b"", data=b"", flags=0):
        self.raw(spelled(kind, fields, data, flags, self.terms))

    def command(self, entry, data=b""):
        """Sends a command, with data in its capsule if there is some."""
        self.send(COMMAND, entry, data)

    def h2c(self, cid, tag, offset, data, last=True, length=None):
        self.send(H2C_DATA, pack("<HHII", cid, tag, offset, len(data) if length is None else length), data, LAST if last else 0)

    def more(self):
        try:
            came = self.socket.recv(1 << 18)
        except ConnectionError:
            came = b""
        if not came:
            raise Lost
        self.got += came

    def pdu(self):
        """The next PDU: its type, its header and its data."""
        while len(self.got) < 8 or len(self.got) < unpack_from("<I", self.got, 4)[0]:
            self.more()
        kind, _, begin, end, whole = common(self.got, 0, self.terms)
        header, data, digests = bytes(self.got[: HEADERS[kind]]), bytes(self.got[begin:end]), bytes(self.got[HEADERS[kind] : HEADERS[kind] + 4])
        if self.terms.header_bytes(kind) > len(header):
            assert crc32c(header) == int.from_bytes(digests, "little"), "a wrong header digest"
        if end < whole:
            assert crc32c(data) == int.from_bytes(self.got[end:whole], "little"), "a wrong data digest"
        del self.got[:whole]
        if kind == C2H_TERM:
            raise Terminated(*unpack_from("<HI", header, 8), data)
        return kind, header, data

    def answer(self):
        """The next response: CID, status, result and the data that came before it."""
        found, self.last_head = b"", None
        while True:
            kind, header, data = self.pdu()
            found += data
            if kind == RESPONSE:
                result, self.last_head, _, cid, status = unpack_from("<QHHHH", header, 8)
                self.repeats = not status >> 15
                return cid, status >> 1 & 0x7FF, result, found
            if kind == C2H_DATA and header[1] & SUCCESS:
                return *unpack_from("<H", header, 8), 0, 0, found
            assert kind == C2H_DATA, kind

    def r2t(self):
        """The next R2T: CID, tag, offset and length."""
        kind, header, _ = self.pdu()
        assert kind == R2T, kind
        return unpack_from("<HHII", header, 8)

    def do(self, entry, data=b"", by_r2t=False):
        """Does a command by itself. Gives its status, its result and its data."""
        self.command(entry, b"" if by_r2t else data)
        if by_r2t:
            cid, tag, offset, length = self.r2t()
            self.h2c(cid, tag, offset, data[offset : offset + length])
        cid, status, result, found = self.answer()
        assert cid == unpack_from("<H", entry, 2)[0], cid
        return status, result, found

    def connect(self, number=0, controller=ANY_CONTROLLER, entries=128, subsystem=SUBSYSTEM, host=HOST, keep_alive=0, attributes=4, record_format=0, host_id=bytes(15) + b"\1"):
        data = bytearray(1024)
        data[:16] = host_id
        pack_into("<H", data, 16, controller)
        data[256 : 256 + len(subsystem)], data[512 : 512 + len(host)] = subsystem.encode(), host.encode()
        entry = entry_of(FABRICS, at4_1=CONNECT, length=1024, kind=IN_CAPSULE, at40_2=record_format, at42_2=number, at44_2=entries - 1, at46_1=attributes, at48_4=keep_alive)
        status, result, _ = self.do(entry, bytes(data))
        self.number = number
        return status, result

    def get_property(self, offset, eight=False):
        return self.do(entry_of(FABRICS, at4_1=PROPERTY_GET, at40_1=eight, at44_4=offset))[:2]

    def set_property(self, offset, value):
        return self.do(entry_of(FABRICS, at4_1=PROPERTY_SET, at44_4=offset, at48_8=value))[0]


def admin(address, subsystem=SUBSYSTEM, terms=Terms(), **how):
    """An admin queue whose controller is enabled, and the controller's number."""
    queue = Host(address, terms)
    status, controller = queue.connect(subsystem=subsystem, **how)
    assert status == 0, hex(status)
    assert queue.set_property(0x14, 1 | 6 << 16 | 4 << 20) == 0
    assert queue.get_property(0x1C) == (0, 1)
    return queue, controller


def io_queue(address, controller, number=1, terms=Terms(), alignment=0, **how):
    queue = Host(address, terms, alignment)
    status, _ = queue.connect(number, controller, **how)
    assert status == 0, hex(status)
    return queue
