#!/usr/bin/env python3
"""Holds a running zalkvorn-target, of 512-byte blocks with a boundary at each eighth, to what it must answer: to each wrong PDU its C2HTermReq, to each wrong command its
status, and to right ones their data.

    target_rows.py ADDRESS:PORT
"""

import sys
import time

from bare_host import *

PATTERN = bytes(range(256)) * 2
MOST, CAPSULE = 128 << 10, 16 << 10
BOTH = Terms(True, True)


def hold(what, got, wanted):
    if got != wanted:
        sys.exit(f"target_rows.py: {what}: {got!r}, and not {wanted!r}")


def pdu(kind, length, header=None, flags=0, begin=0, rest=b""):
    """A PDU with common fields of any kind."""
    return pack("<BBBBI", kind, flags, HEADERS.get(kind, 24) if header is None else header, begin, length) + rest


class Rows:
    def __init__(self, address):
        self.address, self.count = address, 0
        self.admin, self.controller = admin(address)
        self.witness = io_queue(address, self.controller, 1)
        self.turn = self.number = 0

    def others_live(self):
        """A queue that has nothing to do with a fault still writes, reads and does pairs."""
        self.turn += 1
        data = self.turn.to_bytes(4, "little") * 128
        hold("a Write beside", self.witness.do(io(WRITE, 31, kind=IN_CAPSULE), data)[0], 0)
        hold("a Read beside", self.witness.do(io(READ, 31)), (0, 0, data))

    def ends(self, what, host, status, information, repeated, *steps):
        """After the steps the controller ends the connection, and says why."""
        self.count += 1
        for step in steps:
            host.raw(step)
        try:
            while True:
                host.pdu()
        except Terminated as why:
            told_status, told_information, header = why.args
        except Lost:
            sys.exit(f"target_rows.py: {what}: the connection ends without a word")
        hold(what, (told_status, told_information), (status, information))
        if repeated is not None:
            hold(f"{what}: the header", header, repeated)
        try:
            host.more()
            sys.exit(f"target_rows.py: {what}: something comes after C2HTermReq")
        except Lost:
            pass
        host.close()
        self.others_live()

    def before_icreq(self):
        for what, sent, status, information in (
            ("a capsule before ICReq", spelled(COMMAND, io(READ)), 2, 0),
            ("a PDU of an unknown type", pdu(0x0A, 24), 1, 0),
            ("a PDU of type FFh", pdu(0xFF, 24), 1, 0),
            ("ICReq with a header of 127 bytes", pdu(ICREQ, 128, 127), 1, 2),
            ("ICReq of 127 bytes", pdu(ICREQ, 127), 1, 4),
            ("ICReq of 129 bytes", pdu(ICREQ, 129), 1, 4),
            ("ICReq of 4 GB", pdu(ICREQ, 0xFFFFFFFF), 1, 4),
            ("ICReq of version 1", Host.icreq(None, version=1), 6, 8),
            ("ICReq with an alignment of 33 dwords", Host.icreq(None, alignment=32), 1, 10),
        ):
            self.ends(what, Host(self.address), status, information, sent[: max(8, sent[2])], sent)

    def before_connect(self):
        write = spelled(COMMAND, io(WRITE, kind=IN_CAPSULE), PATTERN)
        for what, sent, status, information in (
            ("a second ICReq", Host.icreq(None), 2, 0),
            ("a response from a host", spelled(RESPONSE), 2, 0),
            ("C2HData from a host", spelled(C2H_DATA, data=bytes(8)), 2, 0),
            ("an R2T from a host", spelled(R2T), 2, 0),
            ("C2HTermReq from a host", spelled(C2H_TERM, data=bytes(8)), 2, 0),
            ("H2CData for no R2T", spelled(H2C_DATA, pack("<HHII", 1, 0, 0, 4), bytes(4)), 1, 10),
            ("H2CData with a tag of no place", spelled(H2C_DATA, pack("<HHII", 1, 0xFFFF, 0, 4), bytes(4)), 1, 10),
            ("a capsule with a header of 64 bytes", pdu(COMMAND, 72, 64), 1, 2),
            ("a capsule of 71 bytes", pdu(COMMAND, 71), 1, 4),
            ("a capsule of 0 bytes", pdu(COMMAND, 0), 1, 4),
            ("a capsule of 1 MiB", pdu(COMMAND, 1 << 20, begin=72), 1, 4),
            ("data that begins in the header", write[:3] + b"\x40" + write[4:], 1, 3),
            ("data that begins at 73", write[:3] + b"\x49" + write[4:], 1, 3),
            ("data that begins behind the PDU", pdu(COMMAND, 76, begin=80), 1, 3),
            ("a header digest that wasn't agreed on", write[:1] + b"\x01" + write[2:], 1, 1),
            ("a data digest that wasn't agreed on", write[:1] + b"\x02" + write[2:], 1, 1),
            ("a Read with data in its capsule", spelled(COMMAND, io(READ), PATTERN), 1, 4),
            ("a Write by R2T with data in its capsule", spelled(COMMAND, io(WRITE), PATTERN), 1, 4),
        ):
            self.ends(what, Host(self.address, Terms()), status, information, sent[: max(8, sent[2])] if len(sent) >= sent[2] else None, sent)
        host = Host(self.address, Terms())
        hold("a command before Connect", host.do(io(READ))[0], 0x00C)
        hold("Identify before Connect", host.do(entry_of(IDENTIFY, length=4096, at40_1=1))[0], 0x00C)
        host.close()

    def digests(self):
        good = spelled(COMMAND, io(READ), terms=BOTH)
        for what, sent, status, information in (
            ("a wrong header digest", good[:72] + b"\xaa\xbb\xcc\xdd", 3, 0xDDCCBBAA),
            ("a header digest that is left out", spelled(COMMAND, io(READ), terms=Terms(False, True)) + bytes(4), 1, 4),
            ("the flag of a header digest left out", good[:1] + b"\x00" + good[2:], 1, 1),
            ("the flag of a data digest left out", (lambda it: it[:1] + b"\x01" + it[2:])(spelled(COMMAND, io(WRITE, kind=IN_CAPSULE), PATTERN, terms=BOTH)), 1, 1),
        ):
            self.ends(what, Host(self.address, BOTH), status, information, None, sent)
        for alignment in (0, 1, 7, 31):
            queue = self.queue(BOTH, alignment)
            hold("a Write with digests", queue.do(io(WRITE, 8, kind=IN_CAPSULE), PATTERN)[0], 0)
            hold("a Write by R2T with digests", queue.do(io(WRITE, 9), PATTERN[::-1], by_r2t=True)[0], 0)
            hold("a Read with digests", queue.do(io(READ, 8, 2))[::2], (0, PATTERN + PATTERN[::-1]))
            spoiled = spelled(COMMAND, io(WRITE, 8, kind=IN_CAPSULE), bytes(512), terms=BOTH)
            queue.raw(spoiled[:-1] + bytes([spoiled[-1] ^ 1]))
            hold("a Write whose data is spoiled", (queue.answer()[1], queue.repeats), (0x022, True))
            queue.command(io(WRITE, 8))
            cid, tag, _, length = queue.r2t()
            spoiled = spelled(H2C_DATA, pack("<HHII", cid, tag, 0, length), bytes(512), LAST, BOTH)
            queue.raw(spoiled[:-1] + bytes([spoiled[-1] ^ 1]))
            hold("H2CData that is spoiled", queue.answer()[1], 0x022)
            hold("nothing was written", queue.do(io(READ, 8))[::2], (0, PATTERN))
            queue.close()

    def queue(self, *how, **more):
        """An I/O queue, by another number than the one before it, which the controller may not have ended yet."""
        self.number = self.number % 62 + 2
        return io_queue(self.address, self.controller, self.number, *how, **more)

    def asks(self, cid=1, lba=0, blocks=64, **how):
        """An I/O queue that was asked for a Write's data, and the tag of the R2T."""
        queue = self.queue(**how)
        queue.command(io(WRITE, lba, blocks, cid))
        asked, tag, offset, length = queue.r2t()
        hold("the R2T", (asked, offset, length), (cid, 0, 512 * blocks))
        return queue, tag

    def h2c_data(self):
        for what, status, information, fields, data, flags in (
            ("H2CData with another tag", 1, 10, lambda tag: (1, tag + 1, 0), 32768, LAST),
            ("H2CData of another command", 1, 8, lambda tag: (2, tag, 0), 32768, LAST),
            ("H2CData that leaves a gap", 4, 0, lambda tag: (1, tag, 4), 32764, LAST),
            ("H2CData that ends behind its R2T", 4, 0, lambda tag: (1, tag, 0), 33280, LAST),
            ("H2CData at the end of its R2T", 4, 0, lambda tag: (1, tag, 32768), 512, LAST),
            ("H2CData far away", 4, 0, lambda tag: (1, tag, 0xFFFFFFFF), 512, LAST),
            ("the last H2CData, which isn't", 1, 1, lambda tag: (1, tag, 0), 512, LAST),
            ("all H2CData, but not the last", 1, 1, lambda tag: (1, tag, 0), 32768, 0),
            ("H2CData without data", 1, 16, lambda tag: (1, tag, 0), 0, 0),
        ):
            queue, tag = self.asks()
            self.ends(what, queue, status, information, None, spelled(H2C_DATA, pack("<HHII", *fields(tag), data), bytes(data), flags))
        queue, tag = self.asks()
        self.ends("H2CData of another length than its field", queue, 1, 16, None, spelled(H2C_DATA, pack("<HHII", 1, tag, 0, 8), bytes(16), 0))
        queue, tag = self.asks()
        queue.h2c(1, tag, 0, bytes(32768))
        hold("the Write", queue.answer()[1], 0)
        self.ends("H2CData after all came", queue, 1, 10, None, spelled(H2C_DATA, pack("<HHII", 1, tag, 0, 4), bytes(4), LAST))
        queue, tag = self.asks()
        for at in range(0, 32768, 4096):
            queue.h2c(1, tag, at, bytes([at >> 12]) * 4096, at == 28672)
        hold("a Write in eight parts", queue.answer()[1], 0)
        hold("what it wrote", queue.do(io(READ, 0, 64))[2], b"".join(bytes([at]) * 4096 for at in range(8)))
        queue.close()

    def queue_limits(self):
        queue, _ = self.asks()
        self.ends("a CID that is in use", queue, 1, 10, None, spelled(COMMAND, io(WRITE, 8, 64, cid=1)))
        queue, _ = self.asks(entries=4)
        for cid in (2, 3, 4):
            queue.command(io(WRITE, 8, cid=cid))
        self.ends("more commands than entries", queue, 2, 0, None, spelled(COMMAND, io(WRITE, 8, cid=5)))
        queue = self.queue()
        self.ends("a capsule longer than agreed", queue, 5, 0, None, spelled(COMMAND, io(WRITE, 8, 33, kind=IN_CAPSULE), bytes(33 * 512)))
        queue = self.queue()
        hold("a capsule as long as agreed", queue.do(io(WRITE, 0, 32, kind=IN_CAPSULE), bytes(CAPSULE))[0], 0)
        hold("the most that a command has", queue.do(io(WRITE, 0, MOST // 512), bytes(MOST), by_r2t=True)[0], 0)
        hold("a Write above that", queue.do(io(WRITE, 0, MOST // 512 + 1))[0], 0x002)
        hold("a Read above that", queue.do(io(READ, 0, MOST // 512 + 1))[0], 0x002)
        hold("a Compare above that", queue.do(io(COMPARE, 0, 65536))[0], 0x002)
        hold("Write Zeroes above that", queue.do(io(ZEROES, 0, MOST // 512 + 1))[0], 0)
        queue.close()

    def statuses(self):
        queue = self.queue()
        dataset = lambda ranges, length: entry_of(DATASET, nsid=1, length=length, kind=IN_CAPSULE, at40_4=ranges - 1, at44_4=4)
        for what, entry, data, status in (
            ("an SGL that is too short", io(WRITE, length=511), b"", 0x00F),
            ("a Read's SGL that is too short", io(READ, length=511), b"", 0x00F),
            ("an SGL of another type", io(WRITE, kind=0x40), b"", 0x011),
            ("a Read into its capsule", io(READ, kind=IN_CAPSULE), b"", 0x011),
            ("an SGL behind the capsule's data", io(WRITE, kind=IN_CAPSULE, offset=4), PATTERN, 0x016),
            ("an SGL far behind the capsule's data", io(WRITE, kind=IN_CAPSULE, offset=2**64 - 512), PATTERN, 0x016),
            ("a capsule without the data of its SGL", io(WRITE, kind=IN_CAPSULE), b"", 0x016),
            ("an opcode that isn't served", io(0x0C), b"", 0x001),
            ("an unknown opcode with data", entry_of(0x81, nsid=1, length=512, kind=IN_CAPSULE), PATTERN, 0x001),
            ("another namespace", io(READ, nsid=2), b"", 0x00B),
            ("an LBA above the namespace", io(READ, 32768), b"", 0x080),
            ("blocks that end above the namespace", io(READ, 32767, 2), b"", 0x080),
            ("a Flush", io(FLUSH), b"", 0),
            ("a Flush of all namespaces", io(FLUSH, nsid=0xFFFFFFFF), b"", 0),
            ("a Flush of another namespace", io(FLUSH, nsid=7), b"", 0x00B),
            ("the second of a pair by itself", io(WRITE, fuse=SECOND, kind=IN_CAPSULE), PATTERN, 0x00A),
            ("Write Uncorrectable", io(UNCORRECTABLE, 40), b"", 0),
            ("a Read of what can't be read", io(READ, 40), b"", 0x281),
            ("Write Zeroes", io(ZEROES, 40), b"", 0),
            ("a Deallocate", dataset(1, 16), pack("<IIQ", 0, 1, 40), 0),
            ("a Deallocate as Linux sends it", dataset(1, 4096), pack("<IIQ", 0, 1, 40) + bytes(4080), 0),
            ("a Deallocate of a range out of range", dataset(2, 32), bytes(16) + pack("<IIQ", 0, 1, 32768), 0x080),
            ("Connect once more", entry_of(FABRICS, at4_1=CONNECT, length=1024, kind=IN_CAPSULE), bytes(1024), 0x00C),
            ("Property Get on an I/O queue", entry_of(FABRICS, at4_1=PROPERTY_GET), b"", 0x001),
        ):
            self.count += 1
            hold(what, queue.do(entry, data)[0], status)
            hold(f"{what}: whether it may be repeated", queue.repeats if status else True, status == 0)
        hold("an offset in the capsule", queue.do(io(WRITE, 41, kind=IN_CAPSULE, offset=512), bytes(512) + PATTERN)[0], 0)
        hold("what was written from there", queue.do(io(READ, 41))[::2], (0, PATTERN))
        hold("a Compare that holds", queue.do(io(COMPARE, 41, kind=IN_CAPSULE), PATTERN)[0], 0)
        hold("a Compare that doesn't", queue.do(io(COMPARE, 41), bytes(512), by_r2t=True)[0], 0x285)
        self.pairs(queue)
        queue.close()

    def pairs(self, queue):
        """Pairs, whole and in two packets, with and without R2T, and firsts that stay alone."""
        for first_by_r2t in (False, True):
            for second_by_r2t in (False, True):
                for backwards in (False, True):
                    for holds in (True, False):
                        self.pair(queue, first_by_r2t, second_by_r2t, backwards, holds)
        queue.command(io(COMPARE, 41, cid=5, fuse=FIRST, kind=IN_CAPSULE), bytes(512))
        queue.command(io(READ, 40, cid=6))
        hold("a first whose second doesn't come", queue.answer()[:2], (5, 0x00A))
        hold("and what came in its place", queue.answer()[:2], (6, 0))
        queue.command(io(COMPARE, 41, cid=5, fuse=FIRST), b"")
        cid, tag, _, length = queue.r2t()
        queue.command(io(FLUSH, cid=6))
        hold("what came after a first that waits for data", queue.answer()[:2], (6, 0))
        queue.h2c(cid, tag, 0, bytes(length))
        hold("a first that stayed alone before its data came", queue.answer()[:2], (5, 0x00A))
        queue.command(io(WRITE, 41, cid=5, fuse=FIRST, length=3))
        queue.command(io(WRITE, 41, cid=6, fuse=SECOND, kind=IN_CAPSULE), bytes(512))
        hold("a pair whose first is refused", [queue.answer()[:2], queue.answer()[:2]], [(5, 0x00F), (6, 0x009)])
        queue.command(io(COMPARE, 41, cid=5, fuse=FIRST, kind=IN_CAPSULE), bytes(512))
        queue.command(io(WRITE, 41, cid=6, fuse=SECOND, length=3))
        hold("a pair whose second is refused", [queue.answer()[:2], queue.answer()[:2]], [(5, 0x009), (6, 0x00F)])
        queue.command(io(COMPARE, 41, cid=5, fuse=FIRST, kind=IN_CAPSULE), bytes(512))
        queue.command(io(WRITE, 41, 2, cid=6, fuse=SECOND, kind=IN_CAPSULE), bytes(1024))
        hold("a pair of two lengths", [queue.answer()[1] != 0, queue.answer()[1] != 0], [True, True])

    def pair(self, queue, first_by_r2t, second_by_r2t, backwards, holds):
        self.count += 1
        hold("the Write before a pair", queue.do(io(WRITE, 48, 8, kind=IN_CAPSULE), PATTERN * 8)[0], 0)
        compared, written = PATTERN * 8 if holds else bytes(4096), PATTERN[::-1] * 8
        kinds = [TRANSPORT if it else IN_CAPSULE for it in (first_by_r2t, second_by_r2t)]
        queue.command(io(COMPARE, 48, 8, cid=7, fuse=FIRST, kind=kinds[0]), b"" if first_by_r2t else compared)
        self.others_live()  # so that the second comes in another packet
        queue.command(io(WRITE, 48, 8, cid=8, fuse=SECOND, kind=kinds[1]), b"" if second_by_r2t else written)
        asked = [(queue.r2t(), data) for is_asked, data in ((first_by_r2t, compared), (second_by_r2t, written)) if is_asked]
        for (cid, tag, _, length), data in reversed(asked) if backwards else asked:
            hold("what is asked for", (cid, length), (7 if data is compared else 8, 4096))
            queue.h2c(cid, tag, 0, data[:512], False)
            queue.h2c(cid, tag, 512, data[512:])
        answers = [queue.answer()[:2], queue.answer()[:2]]
        hold("a pair", answers, [(7, 0), (8, 0)] if holds else [(7, 0x285), (8, 0x009)])
        hold("what a pair left", queue.do(io(READ, 48, 8))[2], written if holds else PATTERN * 8)

    def connects(self):
        for what, how, status, result in (
            ("another subsystem", dict(subsystem="nqn.2026-11.org.zalkvorn:two"), 0x182, 0x10100),
            ("a record of another format", dict(record_format=1), 0x180, None),
            ("a queue of one entry", dict(entries=1), 0x182, 44),
            ("a queue of 129 entries", dict(entries=129), 0x182, 44),
            ("an admin queue of a given controller", dict(controller=1), 0x182, 0x10010),
            ("a queue of no controller", dict(number=2, controller=0xFFF0), 0x182, 0x10010),
            ("a queue that is there", dict(number=1, controller=self.controller), 0x182, 42),
            ("a queue above the most", dict(number=65, controller=self.controller), 0x182, 42),
            ("a queue of another host", dict(number=2, controller=self.controller, host=HOST + "0"), 0x182, 0x10200),
            ("a queue of another host identifier", dict(number=2, controller=self.controller, host_id=bytes(16)), 0x182, 0x10000),
        ):
            self.count += 1
            with Host(self.address, Terms()) as host:
                told = host.connect(**how)
                hold(what, told if result is not None else told[0], (status, result) if result is not None else status)
                hold(f"{what}: a second try", host.connect()[0], 0)
        with Host(self.address, Terms()) as host:
            status, controller = host.connect()
            hold("a controller that isn't enabled", host.do(entry_of(IDENTIFY, length=4096, at40_1=1))[0], 0x00C)
            with Host(self.address, Terms()) as other:
                hold("a queue of a controller that isn't enabled", other.connect(1, controller)[0], 0x00C)
        with Host(self.address, Terms()) as host:
            hold("with flow control", (host.connect(attributes=0)[0], host.last_head), (0, 1))
            hold("the head goes on", (host.get_property(8)[0], host.last_head), (0, 2))

    def admins(self):
        queue, controller = admin(self.address, keep_alive=60000)
        identify = lambda what, nsid=0: queue.do(entry_of(IDENTIFY, nsid=nsid, length=4096, at40_1=what))
        log = lambda page, length, offset=0: queue.do(entry_of(GET_LOG_PAGE, nsid=0xFFFFFFFF, length=length, at40_1=page, at42_2=length // 4 - 1, at48_8=offset))
        feature = lambda opcode, what, value=0: queue.do(entry_of(opcode, at40_4=what, at44_4=value))[:2]
        status, _, page = identify(1)
        hold("Identify Controller", (status, page[77], page[78:80], page[111], page[256 + 2], page[512:514]), (0, 5, controller.to_bytes(2, "little"), 1, 3, b"\x66\x44"))
        hold("its capsules", unpack_from("<IIH", page, 1792), ((64 + CAPSULE) // 16, 1, 0))
        hold("its name", page[768:1024].rstrip(b"\0").decode(), SUBSYSTEM)
        status, _, page = identify(0, 1)
        hold("Identify Namespace", (status, unpack_from("<QQQ", page), page[24], page[33], page[130]), (0, (32768,) * 3, 2, 1, 9))
        hold("its limits", unpack_from("<HHHHH", page, 34), (7, 0, 7, 7, 0))
        hold("the list of namespaces", identify(2)[2][:8], pack("<II", 1, 0))
        hold("those above 1", identify(2, 1)[2], bytes(4096))
        hold("the descriptors", identify(3, 1)[2][:2] + identify(3, 1)[2][20:25], b"\x03\x10\x04\x01\0\0\0")
        for what, got, status in (
            ("another namespace", identify(0, 2), 0x00B),
            ("all namespaces", identify(0, 0xFFFFFFFF), 0x00B),
            ("what isn't there to identify", identify(0x1C), 0x002),
            ("a log page that isn't there", log(0x70, 512), 0x109),
            ("a log page from behind its end", log(2, 512, 516), 0x002),
            ("a log page of 1 GB", queue.do(entry_of(GET_LOG_PAGE, length=0xFFFFFFFF, at40_1=2, at42_4=0x0FFFFFFF)), 0x002),
            ("an admin opcode that isn't served", queue.do(entry_of(0x80)), 0x001),
            ("a volatile write cache", feature(GET_FEATURES, 6), 0x002),
            ("a feature that is to be saved", feature(SET_FEATURES, 1 << 31 | 0x0B), 0x10D),
            ("more queues than there can be", feature(SET_FEATURES, 7, 0xFFFF), 0x002),
        ):
            self.count += 1
            hold(what, got[0], status)
        for number, length in ((1, 64), (2, 512), (3, 512), (4, 4096), (5, 4096)):
            status, _, page = log(number, length)
            hold(f"log page {number}", (status, len(page), log(number, 4, length - 4)[2]), (0, length, page[-4:]))
        effects = log(5, 4096)[2]
        hold("the commands that are served", [at for at in range(256) if effects[1024 + 4 * at]], [FLUSH, WRITE, READ, UNCORRECTABLE, COMPARE, ZEROES, DATASET])
        hold("four queues", feature(SET_FEATURES, 7, 3 | 3 << 16), (0, 3 | 3 << 16))
        hold("four queues, asked for", feature(GET_FEATURES, 7), (0, 3 | 3 << 16))
        hold("the keep alive timer", feature(GET_FEATURES, 0x0F), (0, 60000))
        hold("Keep Alive", queue.do(entry_of(KEEP_ALIVE))[0], 0)
        hold("events", feature(SET_FEATURES, 0x0B, 0x100), (0, 0x100))
        hold("Abort", queue.do(entry_of(ABORT, at40_4=0x10001))[:2], (0, 1))
        for cid in range(2, 6):
            queue.command(entry_of(EVENT_REQUEST, cid=cid))
        hold("a fifth request for events", queue.do(entry_of(EVENT_REQUEST))[0], 0x105)
        hold("CAP", (lambda it: (it[0], it[1] & 0x1FFFF))(queue.get_property(0, True)), (0, 127 | 1 << 16))
        hold("CAP by halves", queue.get_property(0)[0], 0x002)
        hold("VS", queue.get_property(8), (0, 0x10400))
        hold("a property that isn't there", queue.get_property(0x20)[0], 0x002)
        io_side = io_queue(self.address, controller, 4)
        with Host(self.address, Terms()) as other:
            hold("a fifth queue", other.connect(5, controller), (0x182, 42))
        hold("queues once one is there", feature(SET_FEATURES, 7, 7 | 7 << 16)[0], 0x00C)
        hold("disabling", queue.set_property(0x14, 6 << 16 | 4 << 20), 0)
        try:
            io_side.more()
            sys.exit("target_rows.py: an I/O queue outlives its controller")
        except Lost:
            pass
        while queue.get_property(0x1C) == (0, 1):
            pass
        hold("it is disabled", queue.get_property(0x1C), (0, 0))
        hold("enabling it by sizes that aren't there", (queue.set_property(0x14, 1), queue.get_property(0x1C)), (0, (0, 2)))
        hold("enabling it", (queue.set_property(0x14, 0), queue.set_property(0x14, 1 | 6 << 16 | 4 << 20), queue.get_property(0x1C)), (0, 0, (0, 1)))
        hold("its requests for events are gone", [queue.command(entry_of(EVENT_REQUEST, cid=cid)) for cid in range(2, 6)] and queue.do(entry_of(EVENT_REQUEST))[0], 0x105)
        self.ends("a CID of a request for events", queue, 1, 10, None, spelled(COMMAND, entry_of(KEEP_ALIVE, cid=2)))
        queue, controller = admin(self.address)
        hold("a shutdown", (queue.set_property(0x14, 1 | 1 << 14 | 6 << 16 | 4 << 20), queue.get_property(0x1C)), (0, (0, 1 | 2 << 2)))
        io_queue_of_lost = io_queue(self.address, controller, 1)
        queue.close()
        try:
            io_queue_of_lost.more()
            sys.exit("target_rows.py: an I/O queue outlives its admin queue")
        except Lost:
            pass

    def silence(self):
        """A controller ends when its host is silent for longer than it said, and not while it sends Keep Alive."""
        (silent, _), (heard, _) = admin(self.address, keep_alive=100), admin(self.address, keep_alive=4000)
        for _ in range(5):
            time.sleep(1)
            hold("Keep Alive in time", heard.do(entry_of(KEEP_ALIVE))[0], 0)
        try:
            silent.more()
        except (Lost, TimeoutError) as why:
            hold("a host that is silent", type(why), Lost)
        heard.close()

    def discovery(self):
        queue, _ = admin(self.address, DISCOVERY)
        status, _, page = queue.do(entry_of(IDENTIFY, length=4096, at40_1=1))
        hold("the discovery controller", (status, page[111], page[768:1024].rstrip(b"\0").decode()), (0, 2, DISCOVERY))
        status, _, page = queue.do(entry_of(GET_LOG_PAGE, length=2048, at40_1=0x70, at42_2=511))
        host, port = self.address.rsplit(":", 1)
        record = page[1024:]
        hold("the records", (status, unpack_from("<QQH", page), record[0], record[2]), (0, (1, 1, 0), 3, 2))
        hold("where", (record[32:64].strip().decode(), record[512:768].strip().decode(), record[256:512].rstrip(b"\0").decode()), (port, host.strip("[]"), SUBSYSTEM))
        hold("a namespace", queue.do(entry_of(IDENTIFY, nsid=1, length=4096))[0], 0x002)
        hold("health", queue.do(entry_of(GET_LOG_PAGE, length=512, at40_1=2, at42_2=127))[0], 0x109)
        queue.close()

    def pieces(self):
        """All that a queue says, byte by byte."""
        queue = self.queue(BOTH)
        for byte in spelled(COMMAND, io(WRITE, 8, kind=IN_CAPSULE, cid=1), PATTERN, terms=BOTH) + spelled(COMMAND, io(READ, 8, cid=2), terms=BOTH):
            queue.raw(bytes([byte]))
        hold("what came byte by byte", (queue.answer()[:2], queue.answer()), ((1, 0), (2, 0, 0, PATTERN)))
        queue.close()
        queue = self.queue()
        many = [spelled(COMMAND, io(READ, 0, 256, cid=cid)) for cid in range(100)]
        queue.raw(b"".join(many))  # 12 MiB of answers, more than any buffer has
        hold("a hundred Reads of 128 KiB", [queue.answer()[:2] for _ in many], [(cid, 0) for cid in range(100)])
        queue.close()

    def all_queues(self):
        """Each port was given back: all can be had at once."""
        self.witness.close()
        self.admin.close()
        hosts, controller = [], 0
        for _ in range(1000):
            for it in hosts:
                it.close()
            queue, controller = admin(self.address)
            hosts = [queue]
            try:
                hosts += [io_queue(self.address, controller, number) for number in range(1, 65)]
                break
            except AssertionError:
                continue
        hold("queues at a time", len(hosts), 65)
        other, told = Host(self.address, Terms()), None
        told = other.connect()[0]
        hold("a controller more", told, 0x181)
        for it in [*hosts, other]:
            it.close()


def main():
    if len(sys.argv) != 2:
        sys.exit(__doc__)
    rows = Rows(sys.argv[1])
    for part in (rows.before_icreq, rows.before_connect, rows.digests, rows.h2c_data, rows.queue_limits, rows.statuses, rows.connects, rows.admins, rows.silence, rows.discovery, rows.pieces, rows.all_queues):
        part()
    print(f"{rows.count} rows, each answered as it must be")


if __name__ == "__main__":
    main()
