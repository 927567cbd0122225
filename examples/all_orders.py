"""Whether any record explains a small trace, by all orders of each unit's steps, from the definition of docs/FORMATS.md and docs/DEFINITIONS.md.

A record may give each piece a worker of its own, so what binds units together are only Reads and Compares that failed: one is done
in its units up to the first in which it fails.
"""

from dataclasses import dataclass
from itertools import product

from auditor import numbered, parts_of
from model import CHANGES, COMPARE, DATASET, MARK, READ, UNCORRECTABLE, ZEROES, refusal
from witness_model import DIFFERS, MARKED, SUCCESS, contradicts, pieces, says, says_nothing_was_written

NEVER = float("inf")
# What a block that nobody knew can hold besides what was found there: bytes that are no others.
FRESH = b"fresh"
# What a step finds in its blocks: bytes, blocks that can be read, a mark, or other bytes.
BYTES, READABLE, A_MARK, OTHERS = range(4)


@dataclass(frozen=True, slots=True)
class Step:
    """What a piece does in a unit. Where it needn't be done it is left out, too. Blocks are counted from the unit's first."""

    began: int
    ended: float
    is_sure: bool
    blocks: tuple = ()  # that it looks at
    finds: int = BYTES
    data: tuple = ()
    puts: tuple = ()  # blocks and what each becomes

    def fits(self, unit):
        if self.finds == BYTES:
            return all(unit[block] == it for block, it in zip(self.blocks, self.data))
        is_marked = any(unit[block] is MARK for block in self.blocks)
        if self.finds == OTHERS:
            return not is_marked and any(unit[block] != it for block, it in zip(self.blocks, self.data))
        return is_marked == (self.finds == A_MARK)

    def after(self, unit):
        if not self.puts:
            return unit
        blocks = list(unit)
        for block, it in self.puts:
            blocks[block] = it
        return tuple(blocks)


def put_by(space, body, part, first):
    """What a command puts in the part's blocks, or a pair's Write."""
    _, begin, count = part
    last = body[-1]
    if last.opcode == DATASET:
        cleared = [lba for lba in range(begin, begin + count) if any(0 <= lba - at < blocks for at, blocks in last.ranges)]
        return tuple((lba - first, bytes(space.block)) for lba in cleared)
    if last.opcode in (READ, COMPARE):
        return ()
    at = begin - last.first
    each = {ZEROES: (bytes(space.block),) * count, UNCORRECTABLE: (MARK,) * count}.get(last.opcode, last.data[at : at + count])
    return tuple((begin - first + place, it) for place, it in enumerate(each))


def found_by(piece, part, size):
    """The bytes that a piece that succeeds finds in the part's blocks, or None where it doesn't look."""
    lead, (_, begin, count) = piece.job.body[0], part
    at = begin - lead.first
    if lead.opcode == READ:
        return tuple(piece.data()[size * k : size * (k + 1)] for k in range(at, at + count))
    return lead.data[at : at + count] if lead.opcode == COMPARE else None


def steps_of_piece(space, piece, is_sure):
    """The steps of a piece that is done, by unit."""
    ended = NEVER if piece.seen.ended is None else piece.seen.ended
    for part in parts_of(space, piece.job.body):
        unit, begin, count = part
        first = space.units()[unit][0]
        data = found_by(piece, part, space.block)
        looks = () if data is None else tuple(range(begin - first, begin - first + count))
        yield unit, Step(piece.seen.began, ended, is_sure, looks, BYTES, data or (), put_by(space, piece.job.body, part, first))


def ways_to_fail(space, piece):
    """Of a piece that failed in one of its units, and succeeded in those before, its steps by unit for each unit in which it can have failed."""
    lead, before = piece.job.body[0], []
    for unit, begin, count in parts_of(space, piece.job.body):
        first, at = space.units()[unit][0], begin - lead.first
        looks = tuple(range(begin - first, begin - first + count))
        step = Step(piece.seen.began, piece.seen.ended, True, looks, data=lead.data[at : at + count])
        failed = Step(step.began, step.ended, True, looks, A_MARK if piece.seen.statuses[0] == MARKED else OTHERS, step.data)
        yield (*before, (unit, failed))
        held = step if lead.opcode == COMPARE else Step(step.began, step.ended, True, looks, READABLE)
        before.append((unit, held))


def is_possible(space, seen):
    """Whether some record can have what its reply says, whatever stands before it."""
    refused = refusal(space, seen.body)
    if not says(space, seen):
        return True
    if refused:
        return seen.statuses == numbered(refused) and seen.data is None
    is_read = len(seen.body) == 1 and seen.body[0].opcode == READ and seen.statuses == (SUCCESS,)
    return not contradicts(seen.statuses) and (seen.data is not None) == is_read


def is_explained(trace, strict=False):
    """Whether some record explains the trace."""
    space = trace.namespace
    if not all(is_possible(space, seen) for seen in trace.jobs):
        return False
    units, ways = [[] for _ in space.units()], []
    for piece in pieces(trace, strict):
        seen = piece.seen
        if refusal(space, seen.body):
            continue
        is_sure = says(space, seen)
        if is_sure and seen.statuses[0] in (MARKED, DIFFERS):
            ways.append(list(ways_to_fail(space, piece)))
        # A look that may be left out is.
        elif is_sure or seen.body[-1].opcode in CHANGES and not says_nothing_was_written(seen):
            for unit, step in steps_of_piece(space, piece, is_sure):
                units[unit].append(step)
    known = {}
    return any(all_units(trace, units, way, known) for way in product(*ways))


def all_units(trace, units, way, known):
    """Whether each unit has an order, where what failed did so in this way. `known` keeps what is known of units."""
    failed = [step for steps in way for step in steps]
    for unit, steps in enumerate(units):
        more = tuple(step for at, step in failed if at == unit)
        if (unit, more) not in known:
            known[unit, more] = has_order_from_start(trace, unit, [*steps, *more])
        if not known[unit, more]:
            return False
    return True


def has_order_from_start(trace, unit, steps):
    """Whether there is an order of the steps from what the unit held at first, or may have held where that isn't known."""
    steps = sorted(steps, key=lambda step: (step.is_sure, -step.ended))
    zero, count = bytes(trace.namespace.block), trace.namespace.units()[unit][1]
    if not trace.unknown:
        return has_order(steps, (zero,) * count)
    found = [{FRESH: None} for _ in range(count)]
    for step in steps:
        if step.finds == BYTES:
            for block, it in zip(step.blocks, step.data):
                found[block][it] = None
    return any(has_order(steps, first) for first in product(*found))


def left_in_sight(left):
    """Of the steps that are left those that look, or put what is looked at yet, and the blocks that are. Any other has a place between them."""
    blocks = {block for step in left for block in step.blocks}
    return [step for step in left if step.blocks or any(block in blocks for block, _ in step.puts)], blocks


def has_order(steps, first):
    """Whether there is an order of all sure steps and some of the others in which each finds what it found, and none comes after one that
    began after its end."""
    rest, tried = [(steps, first, 0)], set()
    while rest:
        left, unit, latest = rest.pop()
        left, blocks = left_in_sight([step for step in left if step.is_sure or step.ended >= latest])
        if not any(step.is_sure for step in left):
            return True
        state = frozenset(map(id, left)), tuple(it if block in blocks else None for block, it in enumerate(unit)), latest
        soonest_sure = min(step.ended for step in left if step.is_sure)
        if state in tried or soonest_sure < latest:
            continue
        tried.add(state)
        soonest, next_ones = min(step.ended for step in left), []
        for step in left:
            if step.began <= soonest_sure and step.fits(unit):
                after = [it for it in left if it is not step], step.after(unit), max(latest, step.began)
                # A look that fits, and leaves no other step behind, is best taken now.
                if not step.puts and step.began <= soonest:
                    next_ones = [after]
                    break
                next_ones.append(after)
        rest += next_ones
    return False
