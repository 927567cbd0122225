#!/usr/bin/env python3
"""An NVMe/TCP controller for tests, with a planted bug or without one, and with wrong PDUs where they are asked for. It serves one namespace in memory, for
zalkvorn-host and Linux's host: it has no discovery and no events.

    lying_target.py --bug torn              prints its address, and serves until its standard input ends

All is done by one thread. A command is done in steps, and of the commands under way each time one, which the seed chooses, makes its next step.
"""

import argparse
import random
import selectors
import socket
import sys
from struct import pack, pack_into, unpack_from

from pdus import *

BUGS = {
    "none": "no bug",
    "torn": "a Write puts its blocks one after the other, and others go on in between",
    "pair": "a pair compares, others go on, and then it writes",
    "stale": "a Read is answered from what was there before the last change, now and then",
    "lost": "a Write isn't done, now and then",
    "late": "a Write is answered before it is done, now and then",
}
# Wrong PDUs, each in place of what a Read, or a Write by R2T, is answered with; "any" changes bytes of any PDU now and then.
FAULTS = ("type", "header", "short", "long", "cid", "twice", "past-end", "gap", "read-r2t", "r2t-past-end", "write-data", "header-digest", "data-digest", "cut", "close", "silence", "terms", "any")
SUCCESS_STATUS, INVALID_FIELD, INVALID_OPCODE, ABORTED, OUT_OF_RANGE, DIFFERS = 0x000, 0x002, 0x001, 0x009, 0x080, 0x285
IN_CAPSULE, PART = 4096, 8192


class Media:
    """The blocks. Each deed is a generator: at a `yield` others go on, and `yield` of statuses, with data, answers."""

    def __init__(self, asked, chance):
        self.asked, self.chance = asked, chance
        zero = bytes(asked.block)
        self.blocks, self.before = [zero] * asked.nsze, [zero] * asked.nsze

    def has_bug(self, bug):
        return self.asked.bug == bug and self.chance.random() < 0.1

    def put(self, lba, blocks):
        for place, block in enumerate(blocks, lba):
            self.before[place], self.blocks[place] = self.blocks[place], block

    def blocks_of(self, data):
        size = self.asked.block
        return [data[at : at + size] for at in range(0, len(data), size)]

    def pause(self):
        for _ in range(self.chance.randrange(4)):
            yield

    def write(self, lba, blocks):
        if self.has_bug("lost"):
            pass
        elif self.has_bug("late"):
            yield [SUCCESS_STATUS], b""
            yield from self.pause()
            yield from self.pause()
            self.put(lba, blocks)
            return
        elif self.asked.bug == "torn":
            for place, block in enumerate(blocks, lba):
                self.put(place, [block])
                if not self.chance.randrange(3):
                    yield
        else:
            self.put(lba, blocks)
        yield from self.pause()
        yield [SUCCESS_STATUS], b""

    def do(self, commands):
        """Does a command or a pair."""
        yield from self.pause()
        entry, data = commands[0]
        opcode, (lba,), count = entry[0], unpack_from("<Q", entry, 40), unpack_from("<H", entry, 48)[0] + 1
        blocks = self.blocks_of(data)
        if opcode == FLUSH:
            yield [SUCCESS_STATUS], b""
        elif opcode == DATASET:
            yield from self.dataset(entry, data)
        elif opcode not in (WRITE, READ, COMPARE, ZEROES):
            yield [INVALID_OPCODE], b""
        elif lba + count > self.asked.nsze:
            yield [OUT_OF_RANGE] + [ABORTED] * (len(commands) - 1), b""
        elif len(commands) == 2:
            yield from self.pair(commands, lba, count, blocks)
        elif entry[1] & 3:
            yield [0x00A], b""
        elif opcode == WRITE:
            yield from self.write(lba, blocks)
        elif opcode == ZEROES:
            yield from self.write(lba, [bytes(self.asked.block)] * count)
        elif opcode == COMPARE:
            status = SUCCESS_STATUS if self.blocks[lba : lba + count] == blocks else DIFFERS
            yield from self.pause()
            yield [status], b""
        else:
            found = b"".join((self.before if self.has_bug("stale") else self.blocks)[lba : lba + count])
            yield from self.pause()
            yield [SUCCESS_STATUS], found

    def dataset(self, entry, data):
        ranges = [unpack_from("<IIQ", data, at) for at in range(0, len(data), 16)]
        if any(lba + count > self.asked.nsze for _, count, lba in ranges):
            yield [OUT_OF_RANGE], b""
            return
        for _, count, lba in ranges if entry[44] & 4 else []:
            self.put(lba, [bytes(self.asked.block)] * count)
        yield [SUCCESS_STATUS], b""

    def pair(self, commands, lba, count, blocks):
        (one, _), (other, data) = commands
        if (one[0], other[0]) != (COMPARE, WRITE) or one[40:50] != other[40:50]:
            yield [INVALID_FIELD] * 2, b""
            return
        holds = self.blocks[lba : lba + count] == blocks
        if self.asked.bug == "pair":
            yield
            yield from self.pause()
        if holds:
            self.put(lba, self.blocks_of(data))
        yield from self.pause()
        yield [SUCCESS_STATUS] * 2 if holds else [DIFFERS, ABORTED], b""


class Ended(Exception):
    """The connection is to end."""


class Connection:
    """A queue of some host."""

    def __init__(self, target, peer):
        self.target, self.socket, self.asked = target, peer, target.asked
        self.got, self.to_send = bytearray(), bytearray()
        self.terms, self.number, self.has_greeted = Terms(), None, False
        self.waiting, self.first, self.enabled = {}, None, 0

    def send(self, *pdu, **how):
        it, chance = bytearray(spelled(*pdu, **how, terms=self.terms)), self.target.chance
        if self.asked.fault == "any" and not chance.randrange(50):
            for _ in range(chance.randrange(1, 4)):
                place = chance.randrange(min(len(it), chance.choice((8, 24, len(it)))))
                it[place : place + chance.randrange(2)] = bytes(chance.choice((0, 1, 255, chance.randrange(256))) for _ in range(chance.choice((0, 1, 1, 1, 9))))
        self.to_send += it

    def take(self):
        """Takes each whole PDU that came."""
        while len(self.got) >= 8 and len(self.got) >= unpack_from("<I", self.got, 4)[0]:
            kind, _, begin, end, whole = common(self.got, 0, self.terms)
            header, data = bytes(self.got[: HEADERS[kind]]), bytes(self.got[begin:end])
            if self.terms.header_bytes(kind) > len(header) and unpack_from("<I", self.got, len(header))[0] != crc32c(header):
                raise Ended("a wrong header digest")
            if end < whole and unpack_from("<I", self.got, end)[0] != crc32c(data):
                raise Ended("a wrong data digest")
            del self.got[:whole]
            if kind == ICREQ and not self.has_greeted:
                self.greet(header)
            elif kind == COMMAND and self.has_greeted:
                self.command(header[8:], data)
            elif kind == H2C_DATA:
                self.h2c_data(header, data)
            else:
                raise Ended(f"a PDU of type {kind} that isn't due")

    def greet(self, header):
        self.has_greeted = True
        digests = header[11] & 3
        fields = bytearray(120)
        pack_into("<HBBI", fields, 0, 7 if self.asked.fault == "terms" else 0, 0, digests, PART)
        self.send(ICRESP, fields)
        self.terms = Terms(bool(digests & 1), bool(digests & 2))

    def command(self, entry, data):
        opcode, length = entry[0], unpack_from("<I", entry, 32)[0]
        towards = (entry[4] if opcode == FABRICS else opcode) & 3
        if towards != 1 or not length or data:
            self.whole(entry, data)
            return
        (cid,) = unpack_from("<H", entry, 2)
        self.waiting[cid] = entry, bytearray(length), 0
        is_wrong = self.number and self.asked.fault == "r2t-past-end"
        self.send(R2T, pack("<HHII", cid, 0, 0, length + 512 * is_wrong))
        if self.number and self.asked.fault == "write-data":
            self.send(C2H_DATA, pack("<HHII", cid, 0, 0, 512), bytes(512))

    def h2c_data(self, header, data):
        cid, _, offset, length = unpack_from("<HHII", header, 8)
        if cid not in self.waiting or self.waiting[cid][2] != offset or length != len(data) or offset + length > len(self.waiting[cid][1]):
            raise Ended("H2CData that isn't due")
        entry, came, _ = self.waiting[cid]
        came[offset : offset + length] = data
        self.waiting[cid] = entry, came, offset + length
        if offset + length == len(came):
            del self.waiting[cid]
            self.whole(entry, bytes(came))

    def whole(self, entry, data):
        """A command with all its data."""
        if entry[0] == FABRICS or not self.number:
            self.admin(entry, data)
            return
        fuse = entry[1] & 3
        if fuse == FIRST and self.first is None:
            self.first = entry, data
            return
        commands = [(entry, data)]
        if self.first and fuse == SECOND:
            commands.insert(0, self.first)
            self.first = None
        self.target.deeds.append((self, commands, self.target.media.do(commands)))

    def admin(self, entry, data):
        opcode, (cid,), result, status, found = entry[0], unpack_from("<H", entry, 2), 0, SUCCESS_STATUS, b""
        asked = self.asked
        if opcode == FABRICS and entry[4] == CONNECT:
            (self.number,) = unpack_from("<H", entry, 42)
            if data[256:512].rstrip(b"\0").decode() != asked.nqn:
                status = 0x182
            result = 1
        elif opcode == FABRICS and entry[4] == PROPERTY_SET:
            self.enabled = unpack_from("<I", entry, 48)[0]
        elif opcode == FABRICS and entry[4] == PROPERTY_GET:
            (offset,) = unpack_from("<I", entry, 44)
            result = {0x00: 1023 | 1 << 16 | 20 << 24 | 1 << 37, 0x08: 0x10400, 0x14: self.enabled, 0x1C: self.enabled & 1}.get(offset, 0)
        elif opcode == IDENTIFY:
            page = bytearray(4096)
            if entry[40] == 1:
                page[24:64] = b"lying_target.py".ljust(40)
                page[77] = asked.mdts
                pack_into("<HI", page, 78, 1, 0x10400)  # the controller's number, and its version
                pack_into("<H", page, 320, 10)  # keep alive
                pack_into("<BBHI", page, 512, 0x66, 0x44, 128, 1)  # sizes of entries, commands of a queue, namespaces
                pack_into("<HHH", page, 520, 0b1101, 1, 0)
                pack_into("<I", page, 536, 1)  # SGLs
                pack_into("<II", page, 1792, (64 + IN_CAPSULE) // 16, 1)
            elif entry[40] == 0 and unpack_from("<I", entry, 4)[0] == 1:
                pack_into("<QQQ", page, 0, asked.nsze, asked.nsze, asked.nsze)
                page[24], page[33], page[130] = 2, 1, asked.block.bit_length() - 1
                pack_into("<HHHHH", page, 34, asked.nawun, 0, asked.nacwu, asked.nabsn, asked.nabo)
            elif entry[40] == 2:
                pack_into("<I", page, 0, 1)
            elif entry[40] != 3:
                status = 0x00B
            found = bytes(page)
        elif opcode == SET_FEATURES and entry[40] == 7:
            result = 63 << 16 | 63
        elif opcode != KEEP_ALIVE:
            status = INVALID_OPCODE
        self.answer(cid, status, found if status == 0 else b"", result)

    def answer(self, cid, status, found, result=0):
        """Sends a command's data and its response. A response is left out now and then, where the data can say that it succeeded."""
        says_so = self.number and found and status == 0 and self.target.chance.randrange(2)
        for at in range(0, len(found), PART):
            part = found[at : at + PART]
            is_last = at + PART >= len(found)
            self.send(C2H_DATA, pack("<HHII", cid, 0, at, len(part)), part, flags=(LAST | (SUCCESS if says_so else 0)) if is_last else 0)
        if not says_so:
            self.send(RESPONSE, pack("<QHHHH", result, 0, self.number or 0, cid, status << 1))

    def answer_all(self, commands, statuses, found):
        if self.asked.fault and self.number and self.spoil(commands, found):
            return
        for (entry, _), status in zip(commands, statuses):
            self.answer(unpack_from("<H", entry, 2)[0], status, found)

    def spoil(self, commands, found):
        """Sends what the planted fault is, and says whether that is all. Most are about a Read."""
        entry, fault = commands[0][0], self.asked.fault
        (cid,) = unpack_from("<H", entry, 2)
        if fault in ("close", "cut"):
            self.to_send += spelled(RESPONSE, pack("<QHHHH", 0, 0, 1, cid, 0))[: 10 if fault == "cut" else 0]
            self.target.flush(self)
            raise Ended("the planted fault")
        if fault == "silence":
            return True
        if not found:
            return False
        size = len(found)
        wrong = {
            "type": lambda: b"\x0c" + spelled(RESPONSE)[1:],
            "header": lambda: spelled(RESPONSE)[:2] + b"\x20" + spelled(RESPONSE)[3:],
            "short": lambda: spelled(RESPONSE)[:4] + pack("<I", 4) + spelled(RESPONSE)[8:],
            "long": lambda: (it := spelled(C2H_DATA, b"", bytes(8), terms=self.terms))[:4] + pack("<I", 0xFFFFFFF0) + it[8:],
            "cid": lambda: spelled(RESPONSE, pack("<QHHHH", 0, 0, 1, cid ^ 0x5555, 0), terms=self.terms),
            "twice": lambda: 2 * spelled(RESPONSE, pack("<QHHHH", 0, 0, 1, cid, 0), terms=self.terms),
            "past-end": lambda: spelled(C2H_DATA, pack("<HHII", cid, 0, 0, size + 512), found + bytes(512), terms=self.terms),
            "gap": lambda: spelled(C2H_DATA, pack("<HHII", cid, 0, 4, size - 4), found[4:], terms=self.terms),
            "read-r2t": lambda: spelled(R2T, pack("<HHII", cid, 0, 0, size), terms=self.terms),
            "header-digest": lambda: spelled(RESPONSE, pack("<QHHHH", 0, 0, 1, cid, 0), terms=self.terms)[:-1] + b"\x00",
            "data-digest": lambda: spelled(C2H_DATA, pack("<HHII", cid, 0, 0, size), found, flags=LAST, terms=self.terms)[:-1] + b"\x00",
        }
        if fault in wrong:
            self.to_send += wrong[fault]()
        return fault in wrong


class Target:
    def __init__(self, asked):
        self.asked, self.chance = asked, random.Random(asked.seed)
        self.media, self.deeds = Media(asked, self.chance), []
        self.listener = socket.create_server((asked.listen, asked.port), family=socket.AF_INET6 if ":" in asked.listen else socket.AF_INET, backlog=128)
        self.listener.setblocking(False)
        self.selector = selectors.DefaultSelector()
        self.selector.register(self.listener, selectors.EVENT_READ)
        self.selector.register(sys.stdin, selectors.EVENT_READ)

    def flush(self, connection):
        try:
            sent = connection.socket.send(connection.to_send) if connection.to_send else 0
            del connection.to_send[:sent]
        except BlockingIOError:
            pass
        wanted = selectors.EVENT_READ | (selectors.EVENT_WRITE if connection.to_send else 0)
        if self.selector.get_key(connection.socket).events != wanted:
            self.selector.modify(connection.socket, wanted, connection)

    def end(self, connection):
        self.selector.unregister(connection.socket)
        connection.socket.close()
        self.deeds = [deed for deed in self.deeds if deed[0] is not connection]

    def serve(self, connection, events):
        try:
            if events & selectors.EVENT_READ:
                came = connection.socket.recv(1 << 18)
                if not came:
                    raise Ended("")
                connection.got += came
                connection.take()
            self.flush(connection)
        except (Ended, Wrong, OSError) as why:
            if str(why):
                print(f"lying_target.py: {why}", file=sys.stderr)
            self.end(connection)

    def step(self):
        """Has one command make a step."""
        place = self.chance.randrange(len(self.deeds))
        connection, commands, deed = self.deeds[place]
        try:
            answer = next(deed, StopIteration)
            if answer is StopIteration:
                del self.deeds[place]
            elif answer:
                connection.answer_all(commands, *answer)
                self.flush(connection)
        except (Ended, OSError):
            self.end(connection)

    def run(self):
        while True:
            for key, events in self.selector.select(0 if self.deeds else None):
                if key.fileobj is sys.stdin:
                    if not sys.stdin.buffer.raw.read(4096):
                        return
                elif key.fileobj is self.listener:
                    peer, _ = self.listener.accept()
                    peer.setblocking(False)
                    peer.setsockopt(socket.IPPROTO_TCP, socket.TCP_NODELAY, 1)
                    self.selector.register(peer, selectors.EVENT_READ, Connection(self, peer))
                else:
                    self.serve(key.data, events)
            for _ in range(4):
                if self.deeds:
                    self.step()


def main():
    words = argparse.ArgumentParser(description=__doc__.splitlines()[0])
    words.add_argument("--bug", choices=BUGS, default="none", help="; ".join(f"{bug}: {what}" for bug, what in BUGS.items()))
    words.add_argument("--fault", choices=FAULTS, help="what is wrong with PDUs of I/O queues")
    words.add_argument("--listen", default="127.0.0.1")
    words.add_argument("--port", type=int, default=0, help="any free one where it is 0")
    words.add_argument("--nqn", default="nqn.2026-11.org.zalkvorn:one")
    words.add_argument("--seed", type=int, default=1)
    words.add_argument("--mdts", type=int, default=5)
    for name, value in {"nsze": 32, "block": 512, "nabsn": 7, "nabo": 0, "nawun": 7, "nacwu": 7}.items():
        words.add_argument(f"--{name}", type=int, default=value)
    target = Target(words.parse_args())
    host, port = target.listener.getsockname()[:2]
    print(f"[{host}]:{port}" if ":" in host else f"{host}:{port}", flush=True)
    target.run()


if __name__ == "__main__":
    main()
