#!/usr/bin/env python3
"""The scripts of bench/land.sh, the same at each call.

    land_scripts.py NAME [NUMBER] DIRECTORY

writes DIRECTORY/whole.vx and DIRECTORY/head.vx, the same script cut before the part that is measured. NUMBER is the point
of a sweep. The names stand at the end of this file.
"""
import random
import sys
from collections import Counter

PLAYERS = ["ann", "bob", "cyd"]
GROUPS = ["all", "members", "owners", "nonmembers", "nonowners"]
FLAGS = ["build", "block-break", "block-place", "use", "chest-access", "passthrough", "pistons"]
BLOCKS = ["stone", "dirt", "planks", "glass", "obsidian"]
PARTS = BLOCKS + ["dust", "torch:down", "lever:up", "repeater:north:3", "lamp"]
KINDS = ["define", "remove", "reshape", "priority", "parent", "flag", "clear", "owner", "member"]


def world(sectors, chunks=2, players=PLAYERS):
    """A square world of so many sectors a side, and its players."""
    return [f"world {sectors} {sectors} {chunks}"] + [f"player {name}" for name in players]


def shape(r, side):
    """4 to 40 columns a side somewhere in a square of so many columns; of ten, one is a polygon of 4 to 8 corners."""
    width, depth = r.randint(4, 40), r.randint(4, 40)
    x, z = r.randrange(side - width + 1), r.randrange(side - depth + 1)
    if r.random() < 0.9:
        return f"cuboid {x} 0 {z} {x + width - 1} 63 {z + depth - 1}"
    count = r.randint(4, 8)
    # Corners on the four edges of the box, one after another round it.
    edges = sorted(r.sample(range(2 * (width + depth) - 4), count))
    return "polygon 0 63 " + " ".join(corner(edge, x, z, width - 1, depth - 1) for edge in edges)


def corner(edge, x, z, width, depth):
    if edge < width:
        return f"{x + edge} {z}"
    edge -= width
    if edge < depth:
        return f"{x + width} {z + edge}"
    edge -= depth
    if edge < width:
        return f"{x + width - edge} {z + depth}"
    return f"{x} {z + depth - (edge - width)}"


def regions(r, count, side):
    """So many regions, with owners, members, flags, priorities and a few parents."""
    for n in range(count):
        yield f"region define r{n} {shape(r, side)}"
        yield from details(r, n)


def details(r, n):
    if r.random() < 0.6:
        yield f"region owner r{n} add {r.choice(PLAYERS)}"
    if r.random() < 0.5:
        yield f"region member r{n} add {r.choice(PLAYERS)}"
    if r.random() < 0.4:
        yield f"region priority r{n} {r.randint(-2, 5)}"
    if r.random() < 0.5:
        yield flag(r, f"r{n}")
    if n and r.random() < 0.05:
        yield f"region parent r{n} r{r.randrange(n)}"


def flag(r, region):
    return f"region flag {region} {r.choice(FLAGS)} {r.choice(['allow', 'deny'])} {r.choice(GROUPS)}"


def position(r, side):
    return f"{r.randrange(side)} {r.randrange(64)} {r.randrange(side)}"


def commands(r, count, side, players=PLAYERS):
    for _ in range(count):
        kind, who, at = r.random(), r.choice(players), position(r, side)
        if kind < 0.4:
            yield f"as {who} place {at} {r.choice(PARTS)}"
        else:
            verb = "break" if kind < 0.7 else "look" if kind < 0.8 else "open" if kind < 0.9 else "turn"
            yield f"as {who} {verb} {at}"


def chest_commands(r, count, side, chests):
    """Commands of which a fifth are for chests that stand there."""
    usual = commands(r, count, side)
    for n, line in enumerate(usual):
        if n % 5:
            yield line
            continue
        who, at, slot, kind = r.choice(PLAYERS), r.choice(chests), r.randrange(27), r.random()
        if kind < 0.4:
            yield f"as {who} put {at} {slot} 7 {r.randint(1, 16)}"
        elif kind < 0.7:
            yield f"as {who} take {at} {slot} {r.randint(1, 16)}"
        else:
            yield f"as {who} open {at}"


def clock(x, z, delay, is_running=True, y=1):
    """A torch, three dust and a repeater in a ring over columns x .. x + 1, z .. z + 2 of a layer. What stands at x + 2,
    z + 1 is beside its dust. Without the torch it stands still."""
    yield f"set {x} {y} {z} stone"
    if is_running:
        yield f"set {x + 1} {y} {z} torch:west"
    for at in (f"{x + 1} {y} {z + 1}", f"{x + 1} {y} {z + 2}", f"{x} {y} {z + 2}"):
        yield f"set {at} dust"
    yield f"set {x} {y} {z + 1} repeater:north:{delay}"


def rings_of_five(tiles, running):
    """A clock on each tile of 4 by 4 columns, with two dust beside it, of which so many run."""
    for n, (x, y, z) in enumerate(tiles):
        yield from clock(x, z, 1, n < running, y)
        yield from (f"set {x + 2} {y} {z + k} dust" for k in (1, 2))


def clocked_pistons(r, count, side, layers=(0,)):
    """By tens under dust that a clock drives, every other to the north, with a stone before each. A tile has 16
    by 6 columns, and stands on one of these layers."""
    tiles = [(16 * k, y, 6 * j) for y in layers for j in range(side // 6) for k in range(side // 16)]
    r.shuffle(tiles)
    for n in range(0, count, 10):
        x, y, z = tiles[n // 10]
        yield from clock(x, z + 1, 1 + n // 10 % 4, y=y + 1)
        for k in range(10):
            at, turn = x + 2 + k, k % 2
            yield f"set {at} {y + 1} {z + 2} dust"
            yield f"set {at} {y} {z + 2} {r.choice(['piston', 'sticky'])}:{'south' if turn else 'north'}"
            yield f"set {at} {y} {z + 3 if turn else z + 1} stone"


def ticks(count):
    return ["tick"] * count


def ticks_for(running, least, together):
    """So many ticks at least, and more where little runs: what runs and the ticks multiply to so much, so that the least
    point of a sweep takes long enough to be told by a clock."""
    return ticks(max(least, together // running))


class Editor:
    """Edits of every kind of regions that the head of a script has defined. It knows which are there, and their parents, so
    that few edits are refused: a removal where the region has children, a parent where that is a cycle."""

    def __init__(self, r, head, side):
        self.r, self.side = r, side
        self.parents = {line.split()[2]: None for line in head if line.startswith("region define ")}
        self.parents.update(line.split()[2:4] for line in head if line.startswith("region parent "))
        self.children = Counter(parent for parent in self.parents.values() if parent)
        self.ids = list(self.parents)
        self.first_count = self.next = len(self.ids)

    def line(self):
        r, region = self.r, self.r.choice(self.ids)
        kind = r.choice(KINDS)
        if kind in ("define", "remove"):
            return self.removal(region) if len(self.ids) >= self.first_count else self.definition()
        if kind == "reshape":
            return f"region reshape {region} {shape(r, self.side)}"
        if kind == "priority":
            return f"region priority {region} {r.randint(-5, 5)}"
        if kind == "parent":
            return self.adoption(region, r.choice(self.ids) if r.random() < 0.3 else None)
        if kind == "flag":
            return flag(r, region)
        if kind == "clear":
            return f"region clear {region} {r.choice(FLAGS)}"
        return f"region {kind} {region} {r.choice(['add', 'drop'])} {r.choice(PLAYERS)}"

    def definition(self):
        region = f"r{self.next}"
        self.next += 1
        self.ids.append(region)
        self.parents[region] = None
        return f"region define {region} {shape(self.r, self.side)}"

    def removal(self, region):
        if not self.children[region]:
            self.ids.remove(region)
            self.children[self.parents.pop(region)] -= 1
        return f"region remove {region}"

    def adoption(self, region, parent):
        if not self.is_above(region, parent):
            self.children[self.parents[region]] -= 1
            self.children[parent] += 1
            self.parents[region] = parent
        return f"region parent {region} {parent or '*'}"

    def is_above(self, region, other):
        while other and other != region:
            other = self.parents[other]
        return other == region


def crowded(r):
    head = world(8) + list(regions(r, 4000, 256)) + ["tick"]
    return head, list(commands(r, 100_000, 256))


def plots(r):
    head = world(6) + list(clocked_pistons(r, 2300, 192)) + list(regions(r, 100, 192)) + ["tick"]
    return head, ticks(200)


def works(r):
    """As plots, among 1,000 regions of which each is one of fifty works, by a domain."""
    head = world(6) + list(clocked_pistons(r, 2300, 192)) + list(regions(r, 1000, 192))
    return head + [f"region domain r{n} add works{n % 50}" for n in range(1000)] + ["tick"], ticks(200)


def edits(r):
    head = world(8) + list(regions(r, 4000, 256)) + ["tick"]
    editor, others, body = Editor(r, head, 256), commands(r, 15_000, 256), []
    for n in range(150_000):
        if n % 100 == 99:
            body.append("tick")
        elif n % 10 == 0:
            body.append(next(others))
        else:
            body.append(editor.line())
    return head, body


def idle(r):
    head = world(8) + [f"set {position(r, 256)} {r.choice(BLOCKS)}" for _ in range(100_000)]
    return head + ["tick"], ticks(20_000)


def building(r):
    """A block placed or broken before each of 20,000 ticks, in a world with 100,000 blocks."""
    body = []
    for _ in range(20_000):
        at = position(r, 256)
        body.append(f"as ann break {at}" if r.random() < 0.3 else f"as ann place {at} {r.choice(BLOCKS)}")
        body.append("tick")
    return idle(r)[0], body


def placed(r):
    """A part placed or broken in each of 64 sectors before each of 1,000 ticks, half of them of machines."""
    sectors = [(32 * x, 32 * z) for z in range(8) for x in range(8)]
    body = []
    for n in range(1000):
        for west, north in sectors:
            at = f"{west + r.randrange(32)} {r.randrange(4)} {north + r.randrange(32)}"
            body.append(f"as ann break {at}" if r.random() < 0.3 else f"as ann place {at} {r.choice(PARTS)}")
        body.append("tick")
    return world(8) + ["tick"], body


def dust(r):
    """9,600 rings of five dust on three layers, all of which run, and 200 ticks."""
    tiles = [(4 * k, y, 4 * j) for y in (1, 5, 9) for j in range(64) for k in range(64)]
    r.shuffle(tiles)
    return world(8) + list(rings_of_five(tiles[:9600], 9600)) + ["tick"], ticks(200)


def clocks(r):
    """25 clocks in 16 sectors, each of which drives 128 dust, lamps and repeaters, and 1,000 ticks. From each a trunk of 15 dust
    leads south, and from every other dust of it a repeater, a row of dust and lamps lead east."""
    head = world(4)
    for x, z in [(25 * k, 25 * j) for j in range(5) for k in range(5)]:
        head += list(clock(x, z, 1 + (x + z) // 25 % 4))
        head += [f"set {x + 2} 1 {z + 1 + k} dust" for k in range(15)]
        for row in range(z + 1, z + 16, 2):
            head += [f"set {x + 3} 1 {row} repeater:east:1"] + [f"set {x + 4 + k} 1 {row} dust" for k in range(8)]
            head += [f"set {x + 5 + 2 * k} 1 {row + 1} lamp" for k in range(4)] + [f"set {x + 12} 1 {row} lamp"]
    return head + ["tick"], ticks(1000)


def no_region(r):
    return world(8), list(commands(r, 400_000, 256))


def fifty_regions(r):
    return world(8) + list(regions(r, 50, 256)) + ["tick"], list(commands(r, 400_000, 256))


def five_hundred_regions(r):
    return world(8) + list(regions(r, 500, 256)) + ["tick"], list(commands(r, 100_000, 256))


def chests(r):
    at = sorted({position(r, 256) for _ in range(1000)})
    return world(8) + [f"set {p} chest" for p in at], list(chest_commands(r, 400_000, 256, at))


def sweep_place(r, count):
    """So many regions over one square of 32 columns, where 20,000 commands are given."""
    head = world(2)
    for n in range(count):
        low, high = r.randint(0, 4), r.randint(27, 31)
        head.append(f"region define r{n} cuboid {low} 0 {low} {high} 63 {high}")
        head += details(r, n)
    return head + ["tick"], list(commands(r, 20_000, 32))


def sweep_pistons(r, count):
    """So many regions over 1,000 pistons, and 50 ticks."""
    return world(8) + list(clocked_pistons(r, 1000, 256)) + list(regions(r, count, 256)) + ["tick"], ticks(50)


def sweep_edits(r, count):
    """So many edits before each of 2,000 ticks, among 4,000 regions."""
    head = world(8) + list(regions(r, 4000, 256)) + ["tick"]
    editor, body = Editor(r, head, 256), []
    for _ in range(2000):
        body += [editor.line() for _ in range(count)] + ["tick"]
    return head, body


def with_members(count):
    """A world with one region that has so many members."""
    return world(8) + ["region define plot cuboid 0 0 0 9 63 9"] + [f"region member plot add n{n}" for n in range(count)]


def sweep_members(r, count):
    """So many members of a region, and 20,000 edits of its priority and its flags in turn."""
    body = [flag(r, "plot") if n % 2 else f"region priority plot {n % 100}" for n in range(20_000)]
    return with_members(count), body


def sweep_names(r, count):
    """So many members of a region, and 2,000 edits that add one more and drop it again."""
    return with_members(count), [f"region member plot {'drop' if n % 2 else 'add'} ann" for n in range(2000)]


def sweep_sectors(r, count):
    """So many sectors, and 40,000 ticks in which nothing happens."""
    return world(int(count ** 0.5)) + ["tick"], ticks(40_000)


def sweep_edited(r, count):
    """So many sectors, and 10,000 ticks, each behind an edit of a flag of the world."""
    flags = [f"region flag __global__ build {'deny' if n % 2 else 'allow'}" for n in range(10_000)]
    return world(int(count ** 0.5)) + ["tick"], [line for edit in flags for line in (edit, "tick")]


def sweep_awake(r, share):
    """960 rings of five dust, of which so many of a hundred run, and 1,000 ticks or more."""
    tiles = [(4 * k, 1, 4 * j) for j in range(30) for k in range(32)]
    r.shuffle(tiles)
    running = max(1, round(960 * share / 100))
    return world(8) + list(rings_of_five(tiles, running)) + ["tick"], ticks_for(running, 1000, 20_000)


def sweep_awake_of_many(r, share):
    """9,600 rings of five dust on three layers, of which so many of a hundred run, and 200 ticks or more."""
    tiles = [(4 * k, y, 4 * j) for y in (1, 5, 9) for j in range(64) for k in range(64)]
    r.shuffle(tiles)
    running = max(1, round(9600 * share / 100))
    return world(8) + list(rings_of_five(tiles[:9600], running)) + ["tick"], ticks_for(running, 200, 20_000)


def sweep_loops(r, count):
    """961 rings of 24 dust, each beside a clock that feeds it and goes out, of which so many run, and 200 ticks or
    more."""
    tiles = [(12 * k, y, 8 * j) for y in (0, 4, 8) for j in range(32) for k in range(21)]
    r.shuffle(tiles)
    head = world(8)
    for n, (x, y, z) in enumerate(tiles[:961]):
        head += clock(x, z, 1, n < count, y + 1)
        ring = [(x + 3 + k, z + j) for k in range(7) for j in range(7) if {k, j} & {0, 6}]
        head += [f"set {at} {y + 1} {to} dust" for at, to in [(x + 2, z + 1), *ring]]
    return head + ["tick"], ticks_for(count, 200, 10_000)


def sweep_machines(r, count):
    """So many pistons, and 200 ticks or more."""
    return world(8) + list(clocked_pistons(r, count, 256, layers=(0, 8))) + ["tick"], ticks_for(count, 200, 100_000)


def sweep_storage(r, count):
    """So many chests in one sector, and 20,000 ticks, before each of which an item is put into a
    slot, or, at each fifth, taken out of the slot that it was put into before."""
    at = [f"{cell % 32} {cell // 1024} {cell // 32 % 32}" for cell in r.sample(range(65536), count)]
    body = []
    for n in range(20_000):
        if n % 5 < 4:
            chest, slot = r.choice(at), r.randrange(27)
            body.append(f"as ann put {chest} {slot} 7 1")
        else:
            body.append(f"as ann take {chest} {slot} 1")
        body.append("tick")
    return world(1) + [f"set {p} chest" for p in at] + ["tick"], body


SCRIPTS = {
    "crowded": crowded,
    "plots": plots,
    "works": works,
    "edits": edits,
    "idle": idle,
    "building": building,
    "placed": placed,
    "dust": dust,
    "clocks": clocks,
    "no_region": no_region,
    "50_regions": fifty_regions,
    "500_regions": five_hundred_regions,
    "chests": chests,
    "sweep_place": sweep_place,
    "sweep_pistons": sweep_pistons,
    "sweep_edits": sweep_edits,
    "sweep_members": sweep_members,
    "sweep_names": sweep_names,
    "sweep_sectors": sweep_sectors,
    "sweep_edited": sweep_edited,
    "sweep_awake": sweep_awake,
    "sweep_awake_of_many": sweep_awake_of_many,
    "sweep_loops": sweep_loops,
    "sweep_machines": sweep_machines,
    "sweep_storage": sweep_storage,
}


def main():
    name, *point, directory = sys.argv[1:]
    r = random.Random(" ".join([name] + point))
    head, body = SCRIPTS[name](r, *map(float if name.startswith("sweep_awake") else int, point))
    for file, lines in (("head.vx", head), ("whole.vx", head + body)):
        with open(f"{directory}/{file}", "w") as out:
            out.write("\n".join(lines) + "\n")


main()
