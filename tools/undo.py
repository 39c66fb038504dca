"""How what a player did is taken back, by the record: which commands, newest first, and what has to stay as it is."""
import vx

# What no piston moves or breaks.
STAYS = ("obsidian", "bedrock", "chest")


class Change:
    """A command that was carried out."""

    __slots__ = ("at", "tick", "player", "text", "verb", "place", "numbers", "part", "is_on", "item")

    def __init__(self, at, entry, words):
        self.at, self.tick, self.player, self.text = at, entry["tick"], entry["player"], entry["cmd"]
        self.verb, self.place = words[0], tuple(words[1:4])
        self.numbers = [int(word) for word in words[4:]] if self.verb in ("put", "take") else []
        # The part that was placed, or that a break took away, and whether that was a lever that was on. The item that was put or taken.
        self.part, self.is_on, self.item = words[4] if self.verb == "place" else None, False, None


class Place:
    """What the record says of a place: the part that stands there, if it is known, all changes of the block, the last turn by another, and the slots of the chest."""

    __slots__ = ("part", "is_on", "blocks", "turn", "slots", "since")

    def __init__(self, part):
        self.part, self.is_on, self.blocks, self.turn, self.slots = part, False, [], None, {}
        # Where in the record the part was seen last.
        self.since = 0


class Undo:
    """Follows a record, and takes back what one player did. A place is its three words, since most are never reckoned with."""

    def __init__(self, player, opening, since, box):
        self.player, self.since, self.box = player, since, box
        self.opening = {tuple(map(str, place)): part for place, part in opening.items()}
        self.places, self.changes, self.count = {}, [], 0
        # Where in the record a piston moved last, by its place and where it faces, if that is known; and where any did.
        self.moved, self.last_move = {}, 0

    def take(self, entry):
        """Takes in a line of the record that is no refusal: those change nothing."""
        self.count += 1
        if "fate" in entry:
            words = entry["fate"].split()
            if words[0] == "moved":
                self.move(tuple(words[1:4]))
        else:
            self.follow(entry, entry["cmd"].split())

    def move(self, piston):
        """A piston moved. Where it faces is known where the record, or the opening, says which one stands there."""
        place = self.places.get(piston) or Place(self.opening.get(piston))
        kind, *facing = (place.part or "").split(":")
        is_known = kind in ("piston", "sticky") and not self.movers(piston, place.since)
        self.moved[piston, facing[0] if is_known else None] = self.last_move = self.count

    def follow(self, entry, words):
        """Follows a command that was carried out."""
        at = tuple(words[1:4])
        place = self.places.get(at)
        if place is None:
            place = self.places[at] = Place(self.opening.get(at))
        if words[0] == "look":
            self.see(place, entry["reply"].removeprefix("seen "))
        elif words[0] != "open":
            self.change(place, Change(self.count, entry, words))

    def change(self, place, change):
        """Follows a command that changed its place."""
        if change.verb in ("place", "break"):
            self.build(place, change)
        elif change.verb == "turn":
            place.is_on = not place.is_on
            place.turn = change if change.player != self.player else place.turn
        else:
            self.transfer(place, change)
        if self.is_asked(change):
            self.changes.append(change)

    def is_asked(self, change):
        """Whether a change is one of those to be taken back."""
        if change.player != self.player or change.tick < self.since:
            return False
        return self.box is None or all(low <= at <= high for at, (low, high) in zip(vx.place_of(change.place), self.box))

    def see(self, place, cell):
        """A look tells what stands there. Heads and air are no parts."""
        kind, *rest = cell.split(":")
        behind = {"torch": 1, "lever": 1, "repeater": 2, "piston": 1, "sticky": 1}.get(kind, 0)
        part = ":".join([kind, *rest[:behind]])
        place.part = part if part in vx.PARTS else None
        place.is_on, place.since = kind == "lever" and rest[1] == "on", self.count

    def build(self, place, change):
        """A placement, or a break, which takes away what is known to stand there."""
        if change.verb == "break" and self.is_asked(change):
            if place.part in STAYS or not self.movers(change.place, place.since):
                change.part, change.is_on = place.part, place.is_on
        place.part, place.is_on, place.slots, place.since = change.part if change.verb == "place" else None, False, {}, self.count
        place.blocks.append(change)

    def transfer(self, place, change):
        """A put or a take. A chest begins empty, so the record has put what is taken."""
        slot, count = change.numbers[0], change.numbers[-1]
        item, held = place.slots.get(slot, (None, 0))
        change.item = change.numbers[1] if change.verb == "put" else item
        place.slots[slot] = change.item, held + (count if change.verb == "put" else -count)

    def movers(self, place, since, own=False):
        """A piston that moved behind this line of the record and may have taken the place, one that stands there only where that is asked; none where there is none."""
        if self.last_move <= since:
            return None
        x, y, z = vx.place_of(place)
        for facing, (east, up, south) in vx.DIRECTIONS.items():
            for far in range(0 if own else 1, vx.REACH + 1):
                piston = str(x - far * east), str(y - far * up), str(z - far * south)
                if max(self.moved.get((piston, facing), 0), self.moved.get((piston, None), 0)) > since:
                    return piston
        return None

    def script(self, player):
        """The lines of a script that takes the changes back, newest first, with a comment for each that it leaves."""
        yield f"# What {self.player} did, taken back by {player}."
        for change in reversed(self.changes):
            try:
                for command in self.back(self.places[change.place], change):
                    yield f"as {player} {command}"
            except vx.Faulty as why:
                yield f"# Left as it is: {change.text} in tick {change.tick}: {why}"

    def back(self, place, change):
        """The commands that take a change back."""
        at = " ".join(change.place)
        self.check_top(place, change)
        if change.verb == "turn":
            return [f"turn {at}"]
        if change.verb in ("put", "take"):
            return [self.back_in_chest(place, change, at)]
        if change.part is None:
            raise vx.Faulty("the record does not say what stood there")
        if change.verb == "place" and change.part == "bedrock":
            raise vx.Faulty("bedrock does not break")
        if any(count for _, count in place.slots.values()):
            raise vx.Faulty("the chest would not be empty")
        place.blocks.pop()
        if change.verb == "place":
            return [f"break {at}"]
        return [f"place {at} {change.part}", *[f"turn {at}"] * change.is_on]

    def check_top(self, place, change):
        """Raises Faulty where the block that the change is about may be there no longer."""
        for later in [*place.blocks[-1:], *[place.turn] * (change.verb == "turn")]:
            if later and later.at > change.at:
                raise vx.Faulty(f"{later.player} did {later.text} in tick {later.tick}")
        if change.verb in ("put", "take") or change.verb == "place" and change.part in STAYS:
            return
        piston = self.movers(change.place, change.at, own=True)
        if piston:
            raise vx.Faulty(f"the piston at {' '.join(piston)} moved, and may have taken the place")

    def back_in_chest(self, place, change, at):
        """The command that takes a put or a take back."""
        slot, count = change.numbers[0], change.numbers[-1]
        item, held = place.slots.get(slot, (None, 0))
        if change.item is None:
            raise vx.Faulty("the record does not say which item it was")
        if held and item != change.item:
            raise vx.Faulty(f"slot {slot} holds item {item} now")
        if change.verb == "put" and held < count:
            raise vx.Faulty(f"slot {slot} holds {held} of it now")
        if change.verb == "take" and held + count > 64:
            raise vx.Faulty(f"slot {slot} holds {held} of it now, and has no room")
        place.slots[slot] = change.item, held + (count if change.verb == "take" else -count)
        return f"take {at} {slot} {count}" if change.verb == "put" else f"put {at} {slot} {change.item} {count}"
