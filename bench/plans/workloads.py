"""Scripts made by a fixed rule, each for one kind of step by a plan: a preparation, and then equal rounds."""

import random

DRIVES, MEMBERS, SEGMENTS = 16, 8, 8
UPPER, LOWER = 64, 112  # slots of a mirrored and of a parity group of eight members


def groups(blocks, mirrored, parity):
    """An array with these numbers of mirrored and of parity groups, the mirrored ones first."""
    lines = [f"array {DRIVES} 512 {SEGMENTS} 8 {blocks}"]
    for group in range(mirrored + parity):
        extent, half = divmod(group, 2)
        members = " ".join(f"{8 * half + k}.{extent}" for k in range(MEMBERS))
        lines.append(f"make {'m' if group < mirrored else 'p'} {members}")
    return lines


def payload(chance):
    return chance.randbytes(8).hex()


def moved(block, old, new):
    """A block goes from one slot to another by plain steps."""
    return [f"claim 0 {new}", f"copy 0 {new} {block}", f"commit 0 {new} {block}", f"release 0 {old}"]


def laid(chance, block, slot):
    """A block's first version goes into a parity slot, by way of slot 0."""
    return ["claim 0 0", f"fill 0 0 {payload(chance)}", f"commit 0 0 {block}"] + moved(block, 0, slot)


def write(blocks, count, rounds):
    """Writes of blocks at random. Two slots of mirrored groups are free, or more where there are too few blocks."""
    chance = random.Random(1)
    lines = groups(blocks, count // 2, count // 2)
    live = chance.sample(range(blocks), min(blocks, UPPER * (count // 2) - 2))
    lines += [f"write 0 {block} {payload(chance)}" for block in live]
    return lines + [f"write 0 {chance.choice(live)} {payload(chance)}" for _ in range(rounds)]


def demote(blocks, count, rounds):
    """The block written longest ago is demoted, and written again."""
    chance = random.Random(2)
    lines = groups(blocks, count // 2, count // 2)
    live = chance.sample(range(blocks), min(blocks, UPPER * (count // 2) - 2))
    lines += [f"write 0 {block} {payload(chance)}" for block in live]
    for turn in range(rounds):
        lines += ["demote 0", f"write 0 {live[turn % len(live)]} {payload(chance)}"]
    return lines


def plug(blocks, count, rounds):
    """A hole of the fullest group is plugged from the emptiest, and the block goes back by four plain steps."""
    chance = random.Random(3)
    parity = count - count // 4
    first = count - parity
    lines = groups(blocks, count // 4, parity)
    filled = min(parity, blocks // 4)
    each = min(LOWER // 2, blocks // filled)
    last = first + filled - 1
    block = 0
    for group in range(first, last + 1):
        # the last group has a block more than the others and the first one fewer; the lowest slots are the holes
        for index in range(LOWER - each - (group == last) + (group == first), LOWER):
            lines += laid(chance, block, 128 * group + index)
            block += 1
    source, hole = 128 * first + LOWER - each + 1, 128 * last
    for _ in range(rounds):
        lines += ["plug 0"] + moved(0, hole, source)
    return lines


def clean(blocks, count, rounds):
    """A block moves from the one group with a hole to the log's end, and back by four plain steps."""
    chance = random.Random(4)
    parity = count - count // 4
    first = count - parity
    lines = groups(blocks, count // 4, parity)
    for index in range(4):
        lines += laid(chance, index, 128 * first + index)
    block = 4
    full = first + 1
    while full < count - 2 and block + LOWER <= blocks:
        for index in range(LOWER):
            lines += laid(chance, block, 128 * full + index)
            block += 1
        full += 1
    for turn in range(rounds):
        group = full + turn // LOWER % 2
        lines += ["clean 0"] + moved(0, 128 * group + turn % LOWER, 128 * first)
    return lines


def stuck(blocks, count, rounds, command):
    """A command that changes nothing: the mirrored group is full, and each parity group has a live slot."""
    chance = random.Random(5)
    lines = groups(blocks, 1, count - 1)
    for block in range(count - 1):
        lines += laid(chance, block, 128 * (block + 1))
    lines += [f"write 0 {count + block} {payload(chance)}" for block in range(UPPER)]
    return lines + [command] * rounds


def no_room(blocks, count, rounds):
    """A write that finds no slot, and whose demotion finds none."""
    return stuck(blocks, count, rounds, f"write 0 0 {payload(random.Random(6))}")


def no_demotion(blocks, count, rounds):
    """A demotion that finds no slot."""
    return stuck(blocks, count, rounds, "demote 0")


def no_clean(blocks, count, rounds):
    """A clean that has nothing to do."""
    return stuck(blocks, count, rounds, "clean 0")


# Steps that find nothing to do. They need a block a parity group.
STUCK = {"noroom": (no_room, 100_000), "demote to noroom": (no_demotion, 100_000), "clean of nothing": (no_clean, 100_000)}

# What makes the script, and how many rounds; a round of a plug or a clean has four plain steps too, and of a demotion a write. The longer
# script has three times the rounds: block 0 is moved twice in a round, and no more than 65,535 times.
KINDS = {"write": (write, 100_000), "demote": (demote, 50_000), "plug": (plug, 10_000), "clean": (clean, 10_000)}
