#!/usr/bin/env python3
"""The rules of docs/RULES.md once more, as they stand there and without haste: each tick reads all cells.

    naive.py < SCRIPT           the replies
    naive.py --script SEED      a random script of machines in a dense box, for the plain program and this one

It knows `as NAME place | break | turn | look`, `tick`, and of `region` define (cuboid), owner, member, domain, priority,
parent and flag, all of which have to be accepted.
"""
import random
import sys

DIRECTIONS = {"east": (1, 0, 0), "west": (-1, 0, 0), "up": (0, 1, 0), "down": (0, -1, 0), "south": (0, 0, 1), "north": (0, 0, -1)}
OPPOSITE = {"east": "west", "west": "east", "up": "down", "down": "up", "south": "north", "north": "south"}
SIDES = ["east", "west", "south", "north"]
ACROSS = {"east": ["south", "north"], "west": ["south", "north"], "south": ["east", "west"], "north": ["east", "west"]}
# A chunk has so many columns on a side; a world is so high where its line does not say it, and so high at most; and it has so
# many sectors each way at most.
CHUNK, HEIGHT, HIGH, MOST_SECTORS = 16, 64, 128, 16
CONDUCTORS = {"stone", "dirt", "planks", "obsidian", "bedrock", "lamp"}


def step(p, direction, count=1):
    return tuple(a + count * b for a, b in zip(p, DIRECTIONS[direction]))


class World:
    def __init__(self, width, height, depth):
        self.width, self.height, self.depth, self.cells = width, height, depth, {}

    def inside(self, p):
        return 0 <= p[0] < self.width and 0 <= p[1] < self.height and 0 <= p[2] < self.depth

    def at(self, p):
        """A cell as a list of its words."""
        return self.cells.get(p, ["air"])

    def put(self, p, cell):
        if cell == ["air"]:
            self.cells.pop(p, None)
        else:
            self.cells[p] = cell


def first_cell(part):
    words = part.split(":")
    return {"dust": words + ["0"], "torch": words + ["on"], "lever": words + ["off"], "repeater": words + ["off", "0"],
            "lamp": ["lamp", "off", "0"], "piston": words + ["in"], "sticky": words + ["in"]}.get(words[0], words)


class Signals:
    def __init__(self, world):
        self.world, self.at = world, world.at
        self.levels = {}
        dust = [p for p, cell in world.cells.items() if cell[0] == "dust"]
        edge = [p for p in dust if self.is_fed(p)]
        level = 15
        while edge and level > 0:
            for p in edge:
                self.levels[p] = level
            edge = {q for p in edge for q in self.links(p) if q not in self.levels}
            level -= 1

    def level(self, p):
        return self.levels.get(p, 0)

    def is_dust(self, p):
        return self.at(p)[0] == "dust"

    def conducts(self, p):
        return self.at(p)[0] in CONDUCTORS

    def links_on(self, p, side):
        beside = step(p, side)
        found = [beside] if self.is_dust(beside) else []
        if self.is_dust(step(beside, "up")) and not self.conducts(step(p, "up")):
            found.append(step(beside, "up"))
        if self.is_dust(step(beside, "down")) and not self.conducts(beside):
            found.append(step(beside, "down"))
        return found

    def links(self, p):
        return [q for side in SIDES for q in self.links_on(p, side)]

    def joins(self, p, side):
        cell = self.at(step(p, side))
        lies_along = cell[0] == "repeater" and cell[1] in (side, OPPOSITE[side])
        return bool(self.links_on(p, side)) or cell[0] in ("torch", "lever") or lies_along

    def points(self, p, side):
        return self.joins(p, side) or not any(self.joins(p, other) for other in ACROSS[side])

    def gives(self, p, direction):
        cell = self.at(p)
        if cell[0] == "torch":
            return cell[2] == "on" and cell[1] != direction
        if cell[0] == "lever":
            return cell[2] == "on"
        return cell[0] == "repeater" and cell[3] == "on" and cell[1] == direction

    def drives(self, p, direction):
        cell = self.at(p)
        if cell[0] == "torch":
            return cell[2] == "on" and direction == "up"
        if cell[0] == "lever":
            return cell[2] == "on" and cell[1] == direction
        return cell[0] == "repeater" and cell[3] == "on" and cell[1] == direction

    def is_driven(self, p):
        return any(self.drives(step(p, d), OPPOSITE[d]) for d in DIRECTIONS)

    def is_fed(self, p):
        return any(self.gives(step(p, d), OPPOSITE[d]) or self.conducts(step(p, d)) and self.is_driven(step(p, d))
                   for d in DIRECTIONS)

    def dust_powers(self, p, d):
        """The dust in that direction from p reaches p."""
        q = step(p, d)
        if not self.is_dust(q) or self.level(q) == 0:
            return False
        return d == "up" or d in SIDES and self.points(q, OPPOSITE[d])

    def is_powered(self, p):
        return self.conducts(p) and (self.is_driven(p) or any(self.dust_powers(p, d) for d in DIRECTIONS))

    def activates(self, p, d):
        return self.gives(step(p, d), OPPOSITE[d]) or self.is_powered(step(p, d)) or self.dust_powers(p, d)

    def is_active(self, p, front=None):
        return any(self.activates(p, d) for d in DIRECTIONS if d != front)

    def is_locked(self, p, facing):
        cells = [(side, self.at(step(p, side))) for side in ACROSS[facing]]
        return any(c[0] == "repeater" and c[1] == OPPOSITE[side] and c[3] == "on" for side, c in cells)

    def next_part(self, p):
        cell = self.at(p)
        if cell[0] == "dust":
            return ["dust", str(self.level(p))]
        if cell[0] == "torch":
            return ["torch", cell[1], "off" if self.is_powered(step(p, cell[1])) else "on"]
        if cell[0] == "lamp":
            if self.is_active(p):
                return ["lamp", "on", "0"]
            return ["lamp", "on", "1"] if cell == ["lamp", "on", "0"] else ["lamp", "off", "0"]
        if cell[0] == "repeater" and not self.is_locked(p, cell[1]):
            _, side, delay, state, wait = cell
            is_input, is_on, wait = self.activates(p, OPPOSITE[side]), state == "on", int(wait)
            if wait == 0 and is_input == is_on:
                return cell
            wait = int(delay) - 1 if wait == 0 else wait - 1
            if wait == 0:
                is_on = not is_on or is_input
            return ["repeater", side, delay, "on" if is_on else "off", str(wait)]
        return cell

    def mobility(self, p):
        cell = self.at(p)
        if not self.world.inside(p):
            return "stays"
        if cell[0] == "air":
            return "empty"
        if cell[0] in ("stone", "dirt", "planks", "glass", "lamp") or cell[0] in ("piston", "sticky") and cell[2] == "in":
            return "moves"
        return "breaks" if cell[0] in ("dust", "torch", "lever", "repeater") else "stays"

    def move(self, p):
        """The cells that a piston takes, if it would move."""
        kind, facing, state = self.at(p)
        if self.is_active(p, facing) == (state == "out"):
            return None
        if state == "out":
            behind = step(p, facing, 2)
            pulls = kind == "sticky" and self.mobility(behind) == "moves"
            return [p, step(p, facing)] + ([behind] if pulls else [])
        cells = [p]
        for n in range(1, 14):
            q = step(p, facing, n)
            cells.append(q)
            mobility = self.mobility(q)
            if mobility != "moves":
                return None if mobility == "stays" else cells
        return None


class Policy:
    def __init__(self):
        self.regions, self.at_large, self.ids = {}, {}, {"__global__": 0}

    def copy(self):
        other = Policy()
        other.regions = {n: {key: v.copy() if hasattr(v, "copy") else v for key, v in r.items()} for n, r in self.regions.items()}
        other.at_large, other.ids = self.at_large.copy(), self.ids.copy()
        return other

    def ancestry(self, n):
        found = []
        while n is not None:
            found.append(n)
            n = self.regions[n]["parent"]
        return found

    def holds(self, n, p):
        low, high = self.regions[n]["box"]
        return all(a <= b <= c for a, b, c in zip(low, p, high))

    def standing(self, subject, n):
        if isinstance(subject, tuple):
            lands = [m for m in self.regions if self.holds(m, subject)]
            joined = any(self.domains(m) & self.domains(n) for m in lands)
            return "owner" if n in lands or joined else "stranger"
        for role in ("owner", "member"):
            if any(subject in self.regions[m][role] for m in self.ancestry(n)):
                return role
        return "stranger"

    def domains(self, n):
        return set().union(*(self.regions[m]["domain"] for m in self.ancestry(n)))

    def value(self, flag, subject, n):
        fits = {"owner": ("all", "members", "owners"), "member": ("all", "members", "nonowners"),
                "stranger": ("all", "nonmembers", "nonowners")}[self.standing(subject, n) if n else "stranger"]
        for m in self.ancestry(n) if n else [0]:
            state, group = (self.regions[m]["flags"] if m else self.at_large).get(flag, (None, None))
            if group in fits:
                return state, m
        return None

    def tops(self, p, counts):
        found = [n for n in sorted(self.regions) if self.holds(n, p) and counts(n)]
        highest = max((self.regions[n]["priority"] for n in found), default=0)
        return [n for n in found if self.regions[n]["priority"] == highest]

    def without_ancestors(self, ns, of):
        above = {m for n in of for m in self.ancestry(n)[1:]}
        return [n for n in ns if n not in above]

    def answer(self, tops, flag, subject):
        speaking = [n for n in tops if self.value(flag, subject, n)]
        taken = self.without_ancestors(speaking, speaking)
        for n in [n for n in taken if self.value(flag, subject, n)[0] == "deny"] + taken:
            return n, self.value(flag, subject, n)
        return None

    def verdict(self, subject, flag, p):
        """Whether it is permitted, and by which rule."""
        found = self.answer(self.tops(p, lambda n: self.value(flag, subject, n)), flag, subject)
        if found is None and self.value(flag, subject, 0):
            found = 0, self.value(flag, subject, 0)
        if found:
            at, (state, source) = found
            return state == "allow", f"flag {flag} at {at} from {source}"
        lets_pass = lambda n: (self.value("passthrough", subject, n) or "?")[0] == "allow"
        tops = self.tops(p, lambda n: self.value("build", subject, n) or not lets_pass(n))
        found = self.answer(tops, "build", subject)
        if found is None and tops:
            insiders = [n for n in tops if self.standing(subject, n) != "stranger"]
            failing = self.without_ancestors([n for n in tops if n not in insiders], insiders)
            return (False, f"member at {failing[0]}") if failing else (True, f"member at {insiders[0]}")
        if found is None and self.value("build", subject, 0):
            found = 0, self.value("build", subject, 0)
        if found:
            at, (state, source) = found
            return state == "allow", f"build at {at} from {source}"
        if (self.value("passthrough", subject, 0) or "?")[0] == "deny":
            return False, "member at 0"
        return True, "default"

    def edit(self, words):
        verb, number = words[0], self.ids.get(words[1])
        if verb == "define":
            number = self.ids[words[1]] = len(self.ids)
            a, b = ([int(n) for n in words[k:k + 3]] for k in (3, 6))
            box = tuple(map(min, a, b)), tuple(map(max, a, b))
            self.regions[number] = {"box": box, "priority": 0, "parent": None, "owner": set(), "member": set(), "domain": set(), "flags": {}}
            return f" region {number}"
        if verb == "flag":
            flags = self.regions[number]["flags"] if number else self.at_large
            flags[words[2]] = words[3], words[4] if len(words) > 4 else "all"
        elif verb == "priority":
            self.regions[number]["priority"] = int(words[2])
        elif verb == "parent":
            self.regions[number]["parent"] = self.ids[words[2]]
        elif words[2] == "add":
            self.regions[number][verb].add(words[3])
        else:
            self.regions[number][verb].discard(words[3])
        return ""


def text(p):
    return "%d %d %d" % p


def tick(world, policy):
    """Steps the machines, and tells the fates."""
    signals = Signals(world)
    by_order = sorted(world.cells, key=lambda p: (p[1], p[2], p[0]))
    moves = [(p, signals.move(p)) for p in by_order if world.at(p)[0] in ("piston", "sticky")]
    fates, claims, made = [], [], []
    for p, cells in moves:
        if cells is None:
            continue
        denials = [(q, policy.verdict(p, "pistons", q)) for q in cells]
        denials = [(q, rule) for q, (is_permitted, rule) in denials if not is_permitted]
        rivals = [q for q, claimed in claims if set(claimed) & set(cells)]
        if denials:
            fates.append(f"denied {text(p)} at {text(denials[0][0])} {denials[0][1]}")
            continue
        claims.append((p, cells))
        if rivals:
            fates.append(f"beaten {text(p)} by {text(rivals[0])}")
        else:
            fates.append(f"moved {text(p)}")
            made.append(cells)
    after = {p: signals.next_part(p) for p in by_order}
    for cells in made:
        kind, facing, state = world.at(cells[0])
        standing = [after.get(q, ["air"]) for q in cells]
        if state == "in":
            new = [[kind, facing, "out"], ["head", facing, "sticky" if kind == "sticky" else "plain"]] + standing[1:-1]
        else:
            new = [[kind, facing, "in"]] + standing[2:] + [["air"]]
        after.update(zip(cells, new))
    world.cells = {p: cell for p, cell in after.items() if cell != ["air"]}
    return fates


def command(world, policy, name, verb, p, part):
    if not world.inside(p):
        return "refused 1 out of world"
    cell = world.at(p)
    if verb == "look":
        return "seen " + ":".join(cell)
    flag = {"place": "block-place", "break": "block-break", "turn": "use"}[verb]
    is_permitted, rule = policy.verdict(name, flag, p)
    if not is_permitted:
        return "refused 2 " + rule
    if verb == "place":
        if cell != ["air"]:
            return "refused 3 occupied"
        world.put(p, first_cell(part[0]))
    elif verb == "break":
        if cell == ["air"]:
            return "refused 4 nothing"
        if cell[0] == "head" or cell[0] in ("piston", "sticky") and cell[2] == "out":
            return "refused 8 extended"
        if cell == ["bedrock"]:
            return "refused 9 unbreakable"
        world.put(p, ["air"])
    else:
        if cell[0] != "lever":
            return "refused 5 not lever"
        world.put(p, cell[:2] + ["off" if cell[2] == "on" else "on"])
    return "ok " + rule


def play(lines):
    ticks = calls = edits = 0
    desk = Policy()
    policy = desk.copy()
    for line in lines:
        words = line.split()
        if words[0] == "world":
            side, height = CHUNK * int(words[3]), int(words[4]) if len(words) > 4 else HEIGHT
            world = World(side * int(words[1]), height, side * int(words[2]))
        elif words[0] == "set":
            world.put(tuple(map(int, words[1:4])), first_cell(words[4]))
        elif words[0] == "as":
            reply = command(world, policy, words[1], words[2], tuple(map(int, words[3:6])), words[6:])
            calls += reply != "refused 1 out of world"
            print(reply)
        elif words[0] == "region":
            edits += 1
            print(f"edit {edits}{desk.edit(words[1:])}")
        elif words[0] == "tick":
            ticks += 1
            print(f"tick {ticks}")
            for fate in tick(world, policy):
                print(fate)
            policy = desk.copy()
    print(f"done ticks {ticks} calls {calls}")


def script(seed):
    """A dense box of machines in a corner of a world, that one player changes between ticks. Of five worlds one is high, and
    of ten one is wide."""
    r = random.Random(seed)
    is_high, is_wide = r.random() < 0.2, r.random() < 0.1
    kinds = ["dust"] * r.randint(1, 12) + ["torch"] * r.randint(0, 3) + ["lever"] * r.randint(1, 3)
    kinds += ["repeater"] * r.randint(0, 4) + ["lamp"] * r.randint(0, 2) + ["piston", "sticky"] * r.randint(0, 3)
    kinds += ["stone"] * r.randint(1, 6) + r.sample(["glass", "obsidian", "bedrock", "chest", "dirt", "planks"], 2)

    def part():
        kind = r.choice(kinds)
        facings = [d for d in DIRECTIONS if kind != "torch" or d != "up"]
        if kind == "repeater":
            return f"repeater:{r.choice(SIDES)}:{r.randint(1, 4)}"
        return f"{kind}:{r.choice(facings)}" if kind in ("torch", "lever", "piston", "sticky") else kind

    size = r.choice([(4, 3, 4), (7, 3, 7), (16, 2, 4), (4, 6, 4), (17, 1, 6), (9, 4, 9)])
    many = lambda: r.randint(9, MOST_SECTORS)
    east, south, chunks = (many(), many(), r.randint(1, 2)) if is_wide else (2, 1, 1)
    height, side = HIGH if is_high else HEIGHT, CHUNK * chunks
    width, depth = side * east, side * south
    # At the first or the last corner of the world, or over the border of the last two sectors, in a high world over its middle too.
    border = width - side - 4, HEIGHT - max(1, size[1] // 2) if is_high else 1, depth - side - 3 if is_wide else 5
    low = r.choice([(0, 0, 0), border, (width - size[0], height - size[1], depth - size[2])])
    place = lambda: tuple(a + r.randrange(n) for a, n in zip(low, size))
    yield f"world {east} {south} {chunks}{f' {HIGH}' if is_high else ''}\nplayer ann"
    for z in range(size[2]):
        for y in range(size[1]):
            for x in range(size[0]):
                if r.random() < 0.7:
                    yield f"set {low[0] + x} {low[1] + y} {low[2] + z} {part()}"
    regions = r.choice([0, 0, 2, 5])
    for n in range(regions):
        yield f"region define r{n} cuboid {text(place())} {text(place())}"
        yield f"region priority r{n} {r.randint(0, 1)}"
        if n and r.random() < 0.4:
            yield f"region parent r{n} r{r.randrange(n)}"
        if r.random() < 0.5:
            yield f"region {r.choice(['owner', 'member'])} r{n} add ann"
        for domain in r.sample(["mill", "works", "door"], r.choice([0, 0, 1, 2])):
            yield f"region domain r{n} add {domain}"
        for flag in r.sample(["pistons", "build", "passthrough", "use", "block-place"], r.randint(0, 2)):
            group = r.choice(["all", "members", "owners", "nonmembers", "nonowners"])
            yield f"region flag r{n} {flag} {r.choice(['allow', 'deny'])} {group}"
    if regions and r.random() < 0.3:
        yield f"region flag __global__ {r.choice(['pistons', 'build', 'passthrough'])} deny"
    for n in range(40):
        yield "tick"
        if regions and r.random() < 0.2:
            yield f"region domain r{r.randrange(regions)} {r.choice(['add', 'drop'])} {r.choice(['mill', 'works', 'door'])}"
        for _ in range(r.choice([0, 0, 1, 3, 8])):
            kind = r.random()
            if kind < 0.5:
                yield f"as ann turn {text(place())}"
            elif kind < 0.75:
                yield f"as ann break {text(place())}"
            else:
                yield f"as ann place {text(place())} {part()}"
        if n % 4 == 3:
            for k in range(size[0] * size[1] * size[2]):
                x, y, z = k % size[0], k // size[0] % size[1], k // size[0] // size[1]
                yield f"as ann look {low[0] + x} {low[1] + y} {low[2] + z}"


if __name__ == "__main__":
    if sys.argv[1:2] == ["--script"]:
        print("\n".join(script(int(sys.argv[2]))))
    else:
        play(line for line in sys.stdin if line.strip())
