"""A plain model of the lists that `nvq generate` writes: of its random numbers, its stamps and its commands."""

from dataclasses import dataclass, field
from functools import cache

from model import Namespace

WORD = 2**64 - 1
# The polynomial of a jump of xoshiro256++ over 2^128 words, as its authors publish it.
JUMP = (0x180EC6D33CFD0ABA, 0xD5A61266F0C9392C, 0xA9582618E03FC9AA, 0x39ABDC4529B1661C)
KINDS = ("write", "compare", "pair", "zeroes", "uncorrectable", "deallocate", "read")
WEIGHTS = {"write": 40, "read": 40, "compare": 5, "pair": 10, "zeroes": 3, "uncorrectable": 0, "deallocate": 0}
MOST_BLOCKS = 256


def rotated(word, by):
    return (word << by | word >> 64 - by) & WORD


@cache
def begin_of(seed, host):
    """The words with which a host's numbers begin: for host 0 the first four of SplitMix64 from the seed, and a jump ahead for each host."""
    if host > 0:
        dice = Dice(begin_of(seed, host - 1))
        dice.jump()
        return dice.words
    words = []
    for _ in range(4):
        seed = (seed + 0x9E3779B97F4A7C15) & WORD
        word = (seed ^ seed >> 30) * 0xBF58476D1CE4E5B9 & WORD
        word = (word ^ word >> 27) * 0x94D049BB133111EB & WORD
        words.append(word ^ word >> 31)
    return words


class Dice:
    """The numbers of xoshiro256++ from these four words on."""

    def __init__(self, words):
        self.words = words

    def step(self):
        a, b, c, d = self.words
        answer = (rotated((a + d) & WORD, 23) + a) & WORD
        c, d = c ^ a, d ^ b
        self.words = [a ^ d, b ^ c, c ^ b << 17 & WORD, rotated(d, 45)]
        return answer

    def jump(self):
        gathered = [0] * 4
        for word in JUMP:
            for bit in range(64):
                if word >> bit & 1:
                    gathered = [it ^ other for it, other in zip(gathered, self.words)]
                self.step()
        self.words = gathered

    def below(self, sides):
        return (self.step() >> 32) % sides


def stamps(size, host, cid, blocks):
    """The data of a Write as it is listed: runs of equal bytes."""
    runs = []
    for block in range(blocks):
        for byte in (host, cid // 256, cid % 256, block) * 2:
            if runs and runs[-1][1] == byte:
                runs[-1][0] += size // 8
            else:
                runs.append([size // 8, byte])
    return ",".join(f"{count}*{byte:02x}" for count, byte in runs)


@dataclass
class Load:
    seed: int = 1
    commands: int = 1000
    space: Namespace = Namespace(nsze=32, nabsn=7, nawun=7, nacwu=7)
    weights: dict = field(default_factory=lambda: dict(WEIGHTS))


class Host:
    """Asks for the commands of a load."""

    def __init__(self, load, number):
        self.load, self.number = load, number
        self.dice, self.written = Dice(begin_of(load.seed, number)), None

    def kind(self):
        left = self.dice.below(max(1, sum(self.load.weights.values())))
        for kind in KINDS[:-1]:
            if left < self.load.weights[kind]:
                return kind
            left -= self.load.weights[kind]
        return "read"

    def blocks(self):
        """The first block and how many: three in four times a whole unit, or as much of one as a command may have."""
        space = self.load.space
        lba = self.dice.below(space.nsze)
        most = min(space.nawun + 1, MOST_BLOCKS)
        if self.dice.below(4) == 0:
            return lba, 1 + self.dice.below(min(space.nsze - lba, most))
        first, blocks = space.units()[space.unit(lba)]
        return first, min(blocks, most)

    def expected(self):
        """The blocks of a Compare and what it expects: mostly what this host wrote last, by its CID."""
        if self.written and self.dice.below(4) > 0:
            return self.written
        return (*self.blocks(), None)

    def data(self, cid, blocks):
        return f"{blocks * self.load.space.block}*00" if cid is None else stamps(self.load.space.block, self.number, cid, blocks)

    def lines(self):
        """Line by line."""
        lines = []
        while len(lines) < self.load.commands:
            lines += self.job(len(lines) + 1)
        return lines

    def job(self, cid):
        kind = self.kind()
        if kind == "pair" and cid < self.load.commands:
            return self.pair(cid)
        if kind == "compare":
            first, blocks, of = self.expected()
            return [f"compare {first} {blocks} {self.data(of, blocks)}"]
        first, blocks = self.blocks()
        if kind == "write":
            return [self.write(first, blocks, cid)]
        if kind == "deallocate":
            return [f"dataset {first}+{blocks} deallocate"]
        return [f"{'read' if kind == 'pair' else kind} {first} {blocks}"]

    def pair(self, cid):
        """A fused pair on as much of the front as its limit allows: on one block where a boundary lies in that."""
        space = self.load.space
        first, blocks, of = self.expected()
        blocks = min(blocks, space.nacwu + 1)
        if space.unit(first) != space.unit(first + blocks - 1):
            blocks = 1
        return [f"compare {first} {blocks} {self.data(of, blocks)} first", f"{self.write(first, blocks, cid + 1)} second"]

    def write(self, first, blocks, cid):
        self.written = first, blocks, cid
        return f"write {first} {blocks} {self.data(cid, blocks)}"


def generated(load, number):
    """The list of a host."""
    return "".join(f"{line}\n" for line in Host(load, number).lines())
