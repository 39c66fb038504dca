"""What the checks read of a script and its replies, by docs/FORMATS.md: the steps of its body, the replies to each, and the record that has to follow them."""
import json, os

# How many columns a chunk has on a side, and how many cells a world is high whose line doesn't say it.
CHUNK, HEIGHT = 16, 64
# How many words of a command, behind the first, are numbers.
NUMBERS = {"look": 3, "place": 3, "break": 3, "turn": 3, "open": 3, "put": 6, "take": 5}
FATES = ("moved", "denied", "beaten")
OUTSIDE = "refused 1 out of world"


def words_of(line):
    return [] if line.startswith("#") else line.split()


def lines_of(file):
    with open(file, "rb") as opened:
        return opened.read().decode("ascii", "replace").split("\n")


def options(script):
    """The words of the command line that stand beside the script, but for how many workers there are and that a record is asked for."""
    file, kept = script.removesuffix("vx") + "args", []
    words = iter(lines_of(file)[:-1] if os.path.exists(file) else [])
    for word in words:
        if word == "--workers":
            next(words, None)
        elif word != "--json" and not word.startswith("--workers="):
            kept.append(word)
    return kept


class Call:
    """A player's command."""

    def __init__(self, words):
        count = NUMBERS[words[2]]
        self.player, self.verb = words[1].lower(), words[2]
        self.numbers = [int(word) for word in words[3 : 3 + count]]
        self.part = "".join(words[3 + count :])
        self.text = " ".join([self.verb, *map(str, self.numbers), *words[3 + count :]])
        self.place = tuple(self.numbers[:3])


class Script:
    """A script without faults. A step of its body is its kind and its calls: a command has one, a block those of its lines, and any other line none."""

    def __init__(self, lines):
        self.size, self.height, self.players, self.opening, self.steps = None, HEIGHT, [], [], []
        block = None
        for words in filter(None, map(words_of, lines)):
            if words[0] == "world":
                self.size = tuple(map(int, words[1:4]))
                self.height = int(words[4]) if len(words) > 4 else HEIGHT
            elif words[0] == "player":
                self.players.append(words[1].lower())
            elif words[0] == "set":
                self.opening.append((tuple(map(int, words[1:4])), words[4]))
            elif words[0] == "together":
                block = []
            elif words[0] == "end":
                self.steps.append(("together", block))
                block = None
            elif words[0] == "as" and block is not None:
                block.append(Call(words))
            else:
                self.steps.append((words[0], [Call(words)] if words[0] == "as" else []))

    def sector(self, place):
        """The number of the sector that has a place of the world, and none where there is none."""
        across, along, size = self.size[0], self.size[1], CHUNK * self.size[2]
        (x, y, z) = place
        is_inside = 0 <= x < across * size and 0 <= y < self.height and 0 <= z < along * size
        return z // size * across + x // size if is_inside else None

    def answered(self, replies):
        """Each step with its replies, of which the last steps may lack some or all. A ValueError where there are more replies than steps take."""
        replies = list(replies)
        for kind, calls in self.steps:
            count = len(calls) if kind in ("as", "together") else 1
            if kind == "tick":
                while count < len(replies) and replies[count].split()[:1] and replies[count].split()[0] in FATES:
                    count += 1
            yield kind, calls, replies[:count]
            del replies[:count]
        if replies:
            raise ValueError(f"a reply to no line: {replies[0]!r}")


def record(script, replies):
    """The record as a list of groups, by the replies to all steps. A group has for each player some lines of the record, each with its call and its reply. The lines of
    a group stand together, in any order that keeps each player's own; one without calls, of no player, has the fates of a tick."""
    groups, window, tick = [], {}, 1
    for kind, calls, told in script.answered(replies):
        parts = {}
        for call, reply in zip(calls, told):
            if reply != OUTSIDE:
                sector = script.sector(call.place)
                line = {"cmd": call.text, "player": call.player, "reply": reply, "sector": sector, "tick": tick}
                parts.setdefault(sector, {}).setdefault(call.player, []).append((written(line), call, reply))
        for sector, group in parts.items():
            window.setdefault(sector, []).append(group)
        if kind == "tick":
            groups += in_order(window)
            groups.append({None: [(written({"fate": fate, "tick": tick}), None, None) for fate in told[1:]]})
            window, tick = {}, tick + 1
    return groups + in_order(window)


def in_order(window):
    """The groups of a window, sector by sector. A call outside the world that is not told so is of no sector, and stands first."""
    return [group for sector in sorted(window, key=lambda it: -1 if it is None else it) for group in window[sector]]


def written(line):
    return json.dumps(line, separators=(",", ":"), sort_keys=True)


def recorded(groups, lines, is_whole=True):
    """The lines of a record, or of the beginning of one, as those of its groups. A ValueError tells the first line that is none of those that may stand there."""
    lines, found = list(lines)[::-1], []
    for group in groups:
        queues = {player: list(queue) for player, queue in group.items() if queue}
        while queues:
            if not lines and not is_whole:
                return found
            line = lines.pop() if lines else "its end"
            player = next((it for it, queue in queues.items() if queue[0][0] == line), None)
            if player not in queues:
                raise ValueError(f"the record has {line} in the place of {' or '.join(queue[0][0] for queue in queues.values())}")
            found.append(queues[player].pop(0))
            if not queues[player]:
                del queues[player]
    if lines:
        raise ValueError(f"the record has {lines[-1]} behind its end")
    return found
