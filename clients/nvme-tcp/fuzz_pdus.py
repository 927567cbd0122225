#!/usr/bin/env python3
"""Sends broken PDUs of a seed to a zalkvorn-target of its own, while another host of it writes, reads and does pairs: each of its commands must end as it must. At the end
the target has as many files open as before, gives all its queues at once, and its record of all that is lawful.

    fuzz_pdus.py [--seconds N] [--seed N] TARGET [OPTION..]     TARGET is the built program, and may have sanitizers; its blocks have 512 bytes
"""

import argparse
import os
import random
import re
import signal
import subprocess
import sys
import tempfile
import threading
import time

from bare_host import *

BLOCKS = 32768
EDGES = [0, 1, 2, 3, 4, 7, 8, 23, 24, 25, 28, 63, 64, 71, 72, 73, 76, 127, 128, 132, 255, 256, 512, 4095, 4096, 8192, 16384, 16385, 65535, 65536, 131072, 131073, 1 << 20, 2**31 - 1, 2**31, 2**32 - 1]


class Target:
    """A target at work."""

    def __init__(self, words, folder):
        self.record = f"{folder}/fuzz.nvr"
        self.process = subprocess.Popen([*words, "--listen", "127.0.0.1:0", "--record", self.record], stdout=subprocess.PIPE, text=True)
        self.address = self.process.stdout.readline().split()[-1]

    def files(self):
        return len(os.listdir(f"/proc/{self.process.pid}/fd"))

    def end(self):
        """The status with which it ends, and what it prints."""
        self.process.send_signal(signal.SIGTERM)
        out, _ = self.process.communicate(timeout=300)
        return self.process.returncode, out

    def __enter__(self):
        return self

    def __exit__(self, *_what):
        self.process.kill()
        self.process.wait()


class Beside(threading.Thread):
    """The host that sends nothing wrong. Its blocks lie apart from those of the others."""

    def __init__(self, address, seed):
        super().__init__(daemon=True)
        self.address, self.chance = address, random.Random(seed)
        self.stops, self.count, self.fault = False, 0, None

    def run(self):
        try:
            self.admin, controller = admin(self.address, keep_alive=30000)
            queue = io_queue(self.address, controller, 1, Terms(True, True))
            while not self.stops:
                self.step(queue)
                self.count += 1
                if self.count % 64 == 0:
                    assert self.admin.do(entry_of(KEEP_ALIVE))[0] == 0
        except BaseException as why:
            self.fault = f"{type(why).__name__} {why}"

    def step(self, queue):
        blocks, by_r2t = self.chance.randrange(1, 9), self.chance.random() < 0.5
        data = self.chance.randbytes(512 * blocks)
        kind = TRANSPORT if by_r2t else IN_CAPSULE
        assert queue.do(io(WRITE, BLOCKS - 8, blocks, kind=kind), data, by_r2t)[0] == 0, "a Write"
        assert queue.do(io(READ, BLOCKS - 8, blocks)) == (0, 0, data), "a Read"
        other = data[::-1]
        for held in (True, False):
            queue.command(io(COMPARE, BLOCKS - 8, blocks, cid=2, fuse=FIRST, kind=IN_CAPSULE), data)
            queue.command(io(WRITE, BLOCKS - 8, blocks, cid=3, fuse=SECOND, kind=IN_CAPSULE), other)
            told = [queue.answer()[:2], queue.answer()[:2]]
            assert told == ([(2, 0), (3, 0)] if held or other == data else [(2, 0x285), (3, 0x009)]), told


def keep_off(data, at):
    """Keeps an entry that stands there off the blocks of the host beside: its LBA is below 16,384, and its blocks are at most 8,192."""
    if len(data) >= at + 50:
        data[at + 41] &= 0x3F
        data[at + 42 : at + 48] = bytes(6)
        data[at + 49] &= 0x1F


class Fuzzer(threading.Thread):
    """Connections with broken PDUs, one after another."""

    def __init__(self, address, seed, until):
        super().__init__(daemon=True)
        self.address, self.chance, self.until = address, random.Random(seed), until
        self.sessions = self.pdus = self.terminated = 0
        self.fault = None

    def run(self):
        try:
            while time.monotonic() < self.until:
                self.session()
                self.sessions += 1
        except BaseException as why:
            self.fault = f"{type(why).__name__} {why}"

    def entry(self):
        """An entry of some command, most of which are right."""
        chance = self.chance
        opcode = chance.choice([WRITE, WRITE, READ, READ, COMPARE, ZEROES, UNCORRECTABLE, DATASET, FLUSH, chance.randrange(256)])
        blocks = chance.choice([1, 1, 2, 8, 32, 33, 256, 257, 65536])
        length = blocks * 512 if opcode in (WRITE, READ, COMPARE) else 16 * chance.randrange(1, 5) if opcode == DATASET else 0
        entry = bytearray(io(opcode, chance.randrange(256), blocks, chance.randrange(8) if chance.random() < 0.9 else chance.randrange(65536),
                             length=length, fuse=chance.choice([0, 0, 0, 0, 1, 1, 2, 2, 3]), kind=chance.choice([IN_CAPSULE, TRANSPORT])))
        if opcode == DATASET:
            entry[40] = length // 16 - 1
            entry[44] = 4
        return entry

    def admin_entry(self):
        chance = self.chance
        opcode = chance.choice([IDENTIFY, GET_LOG_PAGE, SET_FEATURES, GET_FEATURES, ABORT, EVENT_REQUEST, KEEP_ALIVE, FABRICS, chance.randrange(256)])
        entry = bytearray(entry_of(opcode, chance.randrange(8), chance.choice([0, 1, 2, 2**32 - 1]), length=chance.choice([0, 512, 4096]), kind=chance.choice([IN_CAPSULE, TRANSPORT])))
        entry[40] = chance.choice([0, 1, 2, 3, 5, 6, 7, 0x0B, 0x0F, 0x70, chance.randrange(256)])
        if opcode == FABRICS:
            entry[4] = chance.choice([0, 1, 4, 4, 8])
            entry[44] = chance.choice([0, 8, 0x14, 0x1C, chance.randrange(256)])
            entry[48:52] = (1 | 6 << 16 | 4 << 20).to_bytes(4, "little")
        if opcode == GET_LOG_PAGE:
            entry[42:44] = chance.choice([3, 127, 1023, 65535]).to_bytes(2, "little")
        return entry

    def pdu(self, host):
        """A PDU of some kind, most of which are right."""
        chance, draw = self.chance, self.chance.random()
        if draw < 0.93:
            entry = self.entry() if host.number else self.admin_entry()
            length = min(int.from_bytes(entry[32:36], "little"), 17000)
            data = chance.randbytes(length) if entry[39] == IN_CAPSULE and entry[0] & 3 == 1 else b""
            kind, fields = COMMAND, entry
        elif draw < 0.98:
            data = bytes(chance.choice([4, 512, 4096, 16384]))
            kind, fields = H2C_DATA, bytearray(pack("<HHII", chance.randrange(8), chance.randrange(4), chance.choice([0, 0, 512, 4096]), len(data)))
        else:
            kind, fields, data = chance.choice([ICREQ, H2C_TERM, RESPONSE, C2H_DATA, R2T]), bytearray(16), b""
        if chance.random() < 0.2:
            self.spoil(fields, 0)
            keep_off(fields, 0)
        return bytearray(spelled(kind, bytes(fields), data, LAST if kind == H2C_DATA and chance.random() < 0.8 else 0, host.terms))

    def spoil(self, data, least):
        """Changes some bytes."""
        chance = self.chance
        if len(data) <= least:
            return
        at = chance.randrange(least, min(len(data), 140))
        how = chance.randrange(4)
        if how == 0:
            data[at] ^= 1 << chance.randrange(8)
        elif how == 1:
            data[at] = chance.choice([0, 1, 0x7F, 0x80, 0xFF])
        elif how == 2:
            data[at : at + 4] = chance.choice(EDGES).to_bytes(4, "little")[: len(data) - at]
        else:
            data[at : at + 2] = chance.randbytes(2)[: len(data) - at]

    def broken(self, host):
        """Bytes to send: PDUs, of which some are broken, cut, repeated or moved."""
        chance, out = self.chance, []
        for _ in range(chance.randrange(1, 12)):
            pdu, draw = self.pdu(host), chance.random()
            self.pdus += 1
            if draw < 0.07:
                self.spoil(pdu, 0)
            elif draw < 0.09:
                pdu[4:8] = chance.choice(EDGES).to_bytes(4, "little")
            elif draw < 0.11:
                del pdu[chance.randrange(len(pdu)) :]
            elif draw < 0.13:
                pdu += chance.randbytes(chance.randrange(1, 40))
            elif draw < 0.18:
                pdu += bytes(pdu)
            if draw < 0.09:
                keep_off(pdu, 8)
            out.insert(chance.randrange(len(out) + 1) if chance.random() < 0.1 else len(out), pdu)
        return b"".join(out)

    def react(self, host):
        """Reads what comes for a while, and sends what an R2T asks for, or something like it."""
        host.socket.settimeout(self.chance.choice([0.001, 0.003, 0.02]))
        try:
            while True:
                kind, header, _ = host.pdu()
                if kind == R2T and self.chance.random() < 0.9:
                    cid, tag, offset, length = unpack_from("<HHII", header, 8)
                    step = self.chance.choice([length, length, max(4, length // 3 & ~3)])
                    for at in range(offset, offset + length, step):
                        part = min(step, offset + length - at)
                        sent = bytearray(spelled(H2C_DATA, pack("<HHII", cid, tag, at, part), bytes(part), LAST if at + part == offset + length else 0, host.terms))
                        if self.chance.random() < 0.1:
                            self.spoil(sent, 0)
                        host.raw(sent)
        except Terminated:
            self.terminated += 1
            return False
        except Lost:
            return False
        except (TimeoutError, OSError):
            return True
        except Wrong as why:
            raise AssertionError(f"the target sent {why}")

    def connected(self):
        """A connection as far as chance takes it."""
        chance = self.chance
        stage, terms = chance.randrange(8), Terms(chance.random() < 0.4, chance.random() < 0.4)
        if stage == 0:
            return Host(self.address), None
        host = Host(self.address, terms, chance.choice([0, 0, 1, 31]))
        if stage == 1:
            return host, None
        status, controller = host.connect(entries=chance.choice([2, 8, 128]))
        if status or stage == 2 or host.set_property(0x14, 1 | 6 << 16 | 4 << 20) or stage == 3:
            return host, None
        queue = Host(self.address, terms)
        queue.connect(chance.randrange(1, 4), controller, entries=chance.choice([2, 8, 128]), attributes=chance.choice([0, 4]))
        return queue, host

    def session(self):
        try:
            host, other = self.connected()
            goes = True
            for _ in range(self.chance.randrange(1, 5)):
                if goes:
                    sent, at = self.broken(host), 0
                    while at < len(sent):
                        step = self.chance.choice([1, 7, 8, 71, 72, 1460, 65536])
                        host.raw(sent[at : at + step] if self.chance.random() < 0.05 else sent[at:])
                        at += step if self.chance.random() < 0.05 else len(sent)
                    goes = self.react(host)
            end = self.chance.randrange(3)
            if end == 0:
                host.socket.setsockopt(socket.SOL_SOCKET, socket.SO_LINGER, pack("ii", 1, 0))
            elif end == 1:
                host.socket.shutdown(socket.SHUT_WR)
            host.close()
            if other:
                other.close()
        except (Lost, Terminated, OSError):
            pass


def main():
    words = argparse.ArgumentParser(description=__doc__, formatter_class=argparse.RawDescriptionHelpFormatter)
    words.add_argument("--seconds", type=float, default=20)
    words.add_argument("--seed", type=int, default=int.from_bytes(os.urandom(4), "little"))
    asked, target_words = words.parse_known_args()
    until = time.monotonic() + asked.seconds
    with tempfile.TemporaryDirectory(prefix="fuzz-pdus-") as folder, Target(target_words, folder) as target:
        before = target.files()
        beside = Beside(target.address, asked.seed)
        fuzzers = [Fuzzer(target.address, asked.seed * 16 + place, until) for place in range(3)]
        for it in (beside, *fuzzers):
            it.start()
        for it in fuzzers:
            it.join()
        beside.stops = True
        beside.join(120)
        faults = [it.fault for it in (beside, *fuzzers) if it.fault]
        if target.process.poll() is not None:
            faults.append(f"the target ended with {target.process.returncode}")
        elif not faults:
            beside.admin.close()
            faults += left_behind(target, before)
        status, out = target.end()
        if status != 0 or not re.search(r"^lawful jobs \d+ .*\n\Z", out, re.M):
            faults.append(f"the target ended with {status}, and printed {out[-200:]!r}")
    count, sessions, terminated = (sum(getattr(it, what) for it in fuzzers) for what in ("pdus", "sessions", "terminated"))
    told = f"seed {asked.seed}: {count} PDUs in {sessions} sessions, {terminated} of which were terminated; {beside.count} rounds beside"
    if faults or not beside.count or not terminated:
        sys.exit(f"fuzz_pdus.py: {told}: {'; '.join(faults) or 'nothing was tried'}")
    print(f"{told}; {out.splitlines()[-1]}")


def left_behind(target, before):
    """What the sessions left of themselves, in words."""
    late = time.monotonic() + 60
    while target.files() > before:
        if time.monotonic() > late:
            return [f"the target has {target.files()} files open, and not {before}"]
        time.sleep(0.05)
    try:
        queue, controller = admin(target.address)
        queues = [io_queue(target.address, controller, number) for number in range(1, 65)]
    except AssertionError as status:
        return [f"not all queues are there afterwards: {status}"]
    for it in (queue, *queues):
        it.close()
    return []


if __name__ == "__main__":
    main()
