"""The scripts that both programs are timed on, made by a fixed rule: name, what it does, and its lines."""

import random


def mirrored(groups, drives, segments):
    """Groups of three members side by side, and the slots they have."""
    lines, slots, loads = [], [], [0] * drives
    count = 3 * segments // 2 * 2
    for group in range(groups):
        members = [(3 * group + k) % drives for k in range(3)]
        lines.append("make m " + " ".join(f"{drive}.{loads[drive]}" for drive in members))
        for drive in members:
            loads[drive] += 1
        slots += [128 * group + index for index in range(count)]
    return lines, slots, loads


def parity(first, groups, drives, segments, loads):
    """Groups of four members after those that are made, and the slots they have."""
    lines, slots = [], []
    for group in range(first, first + groups):
        members = [(4 * group + k) % drives for k in range(4)]
        lines.append("make p " + " ".join(f"{drive}.{loads[drive]}" for drive in members))
        for drive in members:
            loads[drive] += 1
        slots += [128 * group + index for index in range(6 * segments)]
    return lines, slots


def writes(count, payload, blocks, drives=16, extents=512, groups=256):
    """Fresh writes of blocks at random, each read once and its old place released."""
    chance = random.Random(1)
    lines, slots, _ = mirrored(groups, drives, 8)
    lines.insert(0, f"array {drives} {extents} 8 {payload} {blocks}")
    free, place = slots[:], {}
    chance.shuffle(free)
    for _ in range(count):
        block = chance.randrange(min(blocks, len(slots) - 8))
        slot, worker = free.pop(), chance.randrange(8)
        lines += [f"claim {worker} {slot}", f"fill {worker} {slot} {chance.randbytes(payload).hex()}", f"commit {worker} {slot} {block}"]
        if block in place:
            lines.append(f"release {worker} {place[block]}")
            free.insert(0, place[block])
        lines.append(f"read {block}")
        place[block] = slot
    return lines


def trims(count, payload, blocks):
    """Writes of blocks at random, one in five of them a trim, each read once."""
    chance = random.Random(4)
    lines, _, _ = mirrored(256, 16, 8)
    lines.insert(0, f"array 16 512 8 {payload} {blocks}")
    for _ in range(count):
        block, worker = chance.randrange(blocks), chance.randrange(8)
        if chance.randrange(5) == 0:
            lines.append(f"trim {worker} {block}")
        else:
            lines.append(f"write {worker} {block} {chance.randbytes(payload).hex()}")
        lines.append(f"read {block}")
    return lines


def copies(count):
    """Blocks that go to and fro between mirrored and parity slots, each read by its record."""
    chance = random.Random(2)
    lines, upper, loads = mirrored(64, 16, 8)
    more, lower = parity(64, 64, 16, 8, loads)
    lines = ["array 16 512 8 64 1024"] + lines + more
    place, hops = {}, {}
    for block in range(1024):
        slot = upper.pop()
        lines += [f"claim 0 {slot}", f"fill 0 {slot} {chance.randbytes(64).hex()}", f"commit 0 {slot} {block}"]
        place[block], hops[block] = slot, 0
    free = upper + lower
    chance.shuffle(free)
    for _ in range(count):
        block, slot = chance.randrange(1024), free.pop()
        hops[block] += 1
        lines += [f"claim 1 {slot}", f"copy 1 {slot} {block}", f"commit 1 {slot} {block}", f"release 1 {place[block]}"]
        lines.append("at " + f"{block:08x}{1:08x}{hops[block]:04x}{slot:04x}")
        free.insert(0, place[block])
        place[block] = slot
    return lines


def maps(count):
    """Records taken into four maps, which are compared and joined now and then."""
    chance = random.Random(3)
    lines = ["array 16 512 8 8 65536"]
    for time in range(count):
        record = f"{chance.randrange(65536):08x}{chance.randrange(1, 1000):08x}{chance.randrange(9):04x}{chance.randrange(65536):04x}"
        lines.append(f"take {chance.randrange(4)} {record}")
        if time % 1000 == 999:
            one, other = chance.sample(range(4), 2)
            lines += [f"same {one} {other}", f"merge {one} {other}", f"merge {other} {one}", f"same {one} {other}"]
    return lines + ["show 0", "show 1"]


WORKLOADS = {
    "writes of 8 bytes": lambda: writes(180_000, 8, 4096),
    "writes of 64 bytes": lambda: writes(90_000, 64, 4096),
    "writes of 1,024 bytes": lambda: writes(30_000, 1024, 4096),
    "writes of 4,096 bytes": lambda: writes(8_000, 4096, 4096),
    "writes of 65,536 bytes": lambda: writes(1_000, 65536, 600, 8, 64, 30),
    "writes of 64 bytes, one in five a trim": lambda: trims(180_000, 64, 4096),
    "copies": lambda: copies(180_000),
    "maps": lambda: maps(400_000),
}
