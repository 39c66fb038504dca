"""What a script's commands come to where nobody forbids anything, by docs/RULES.md, "Commands", and whether replies are those of some order of each block's lines. A place
is a cell's text and, of a chest, the slots that hold something, as pairs of their number and (item, count)."""
from scripts import OUTSIDE, Script, record, recorded

AIR = ("air", ())
# What a part is as it is placed, by its first word: the words behind its own.
BEGINS = {"dust": ":0", "torch": ":on", "lever": ":off", "repeater": ":off:0", "lamp": ":off:0", "piston": ":in", "sticky": ":in"}
MACHINES = BEGINS.keys() - {"lever"}
SLOTS, MOST = 27, 64
# So many worlds at once are followed at most.
WORLDS = 20000


def placed(part):
    return part + BEGINS.get(part.split(":")[0], ""), ()


def act(call, place):
    """The reply to a command and what it leaves, by what is at its place: no head and no piston that is out, which come of ticks of machines."""
    text, slots = place
    kind = text.split(":")[0]
    if call.verb == "look":
        return f"seen {text}", place
    if call.verb == "place":
        return ("ok default", placed(call.part)) if kind == "air" else ("refused 3 occupied", place)
    if call.verb == "turn":
        if kind != "lever":
            return "refused 5 not lever", place
        return "ok default", (text[:-2] + "off" if text.endswith(":on") else text[:-3] + "on", slots)
    if call.verb == "break":
        if kind == "air":
            return "refused 4 nothing", place
        if kind == "bedrock":
            return "refused 9 unbreakable", place
        return ("refused 7 not empty", place) if slots else ("ok default", AIR)
    if kind != "chest":
        return "refused 6 not chest", place
    if call.verb == "open":
        shown = "".join(f" {slot}={item}x{count}" for slot, (item, count) in slots) or " nothing"
        return f"ok default holds{shown}", place
    slot, held = call.numbers[3], dict(slots)
    if slot >= SLOTS:
        return "refused 10 no slot", place
    item, count = held.get(slot, (None, 0))
    if call.verb == "put":
        more = call.numbers[5]
        if item not in (None, call.numbers[4]):
            return "refused 11 other item", place
        if more == 0 or count + more > MOST:
            return "refused 12 bad count", place
        held[slot] = call.numbers[4], count + more
    else:
        less = call.numbers[4]
        if less == 0 or less > count:
            return "refused 12 bad count", place
        held[slot] = item, count - less
        if count == less:
            del held[slot]
    return "ok default", (text, tuple(sorted(held.items())))


def ends(queues, places):
    """What some order of the queues' calls leaves at these places, where each call has its reply (None: any), one after another and each once. Each queue keeps its order."""
    numbers = {place: number for number, place in enumerate(places)}
    queues = [[(numbers[call.place], call, reply) for call, reply in queue] for queue in queues]
    begins = (0,) * len(queues), tuple(places.values())
    seen, found, waiting = {begins}, set(), [begins]
    while waiting:
        at, cells = waiting.pop()
        heads = [(player, *queue[at[player]]) for player, queue in enumerate(queues) if at[player] < len(queue)]
        if not heads and cells not in found:
            found.add(cells)
            yield dict(zip(places, cells))
        steps = []
        for player, place, call, reply in heads:
            told, left = act(call, cells[place])
            if reply not in (None, told):
                continue
            step = at[:player] + (at[player] + 1,) + at[player + 1 :], cells[:place] + (left,) + cells[place + 1 :]
            # Who changes nothing, or is the last to come to a place, may as well go first: nobody else is told another thing then.
            others = (it for other, queue in enumerate(queues) if other != player for it in queue[at[other] :])
            if (left == cells[place] and reply) or all(it[0] != place for it in others):
                steps = [step]
                break
            steps.append(step)
        waiting += [step for step in steps if step not in seen]
        seen.update(steps)


class Worlds:
    """The worlds that may be there by the replies so far: of each sector the places that it may have, as none of its commands reads another sector."""

    def __init__(self, script):
        self.script, self.sectors = script, {}
        for place, part in script.opening:
            # what is set again is set in place of what was
            self.sectors.setdefault(script.sector(place), [{}])[0][place] = placed(part)

    def play(self, calls, replies):
        """Follows the calls of a step, each player's in their order, with these replies, of which the last ones may lack."""
        parts = {}
        for number, call in enumerate(calls):
            sector, reply = self.script.sector(call.place), replies[number] if number < len(replies) else None
            if sector is not None:
                parts.setdefault(sector, {}).setdefault(call.player, []).append((call, reply))
        for sector, queues in parts.items():
            self.sectors[sector] = self.after(sector, list(queues.values()), is_last=len(replies) < len(calls))

    def after(self, sector, queues, is_last):
        left = {}
        for places in self.sectors.get(sector, [{}]):
            touched = {call.place: places.get(call.place, AIR) for queue in queues for call, _ in queue}
            for end in ends(queues, touched):
                # a place where there is air is not named
                world = {place: cell for place, cell in {**places, **end}.items() if cell != AIR}
                left[frozenset(world.items())] = world
                if is_last or len(left) > WORLDS:
                    break
        if not left:
            told = "; ".join(f"{call.player} {call.text}: {reply}" for queue in queues for call, reply in queue)
            raise ValueError(f"no order of these calls in sector {sector} has these replies: {told}"[:600])
        if len(left) > WORLDS:
            raise ValueError(f"too many worlds may be in sector {sector}: the script should look more often")
        return list(left.values())


def is_plain(script):
    """Whether the rules of commands are all that it takes to follow a script: nobody forbids anything, and no part moves."""
    parts = [part for _, part in script.opening] + [call.part for _, calls in script.steps for call in calls]
    kinds = {kind for kind, _ in script.steps}
    return kinds <= {"as", "together", "tick"} and ("tick" not in kinds or not any(part.split(":")[0] in MACHINES for part in parts))


def see_borders(script, calls, replies):
    """Sees that those calls are told to be outside the world that are."""
    for call, reply in zip(calls, replies):
        if (script.sector(call.place) is None) != (reply == OUTSIDE):
            raise ValueError(f"{call.player} {call.text}: {reply}")


def judge(file_lines, written, has_record=False, is_whole=True):
    """Raises a ValueError where no order of the blocks' lines writes this text. Where it has a whole record, that is such an order; else one is searched for. A run that ended
    for a fault that is not the script's may have written a beginning of such a text."""
    script = Script(file_lines)
    if not is_plain(script):
        raise ValueError("a script with regions, questions, or ticks of machines: its replies are not followed here")
    lines = written.split("\n")
    if lines.pop() and is_whole:
        raise ValueError("the last line has no end")
    done = next((number for number, line in enumerate(lines) if line.startswith("done ")), None)
    if is_whole and done is None:
        raise ValueError("it is not done")
    replies, worlds, ticks, calls = lines[:done], Worlds(script), 0, 0
    for kind, asked, told in script.answered(replies):
        count = len(asked) if kind != "tick" else 1
        if len(told) > count or (len(told) < count and done is not None):
            raise ValueError(f"{len(told)} replies to {count} lines: {told}")
        if kind == "tick":
            ticks += 1
            if told not in ([f"tick {ticks}"], []):
                raise ValueError(f"tick {ticks} has {told}")
        else:
            see_borders(script, asked, told)
            if not (has_record and is_whole):
                worlds.play(asked, told)
            calls += sum(reply != OUTSIDE for reply in told)
        if len(told) < count:
            return
    if done is None:
        return
    if lines[done] != f"done ticks {ticks} calls {calls}":
        raise ValueError(f"{lines[done]!r} after {ticks} ticks and {calls} calls")
    if has_record:
        follow(script, replies, lines[done + 1 :], is_whole)
    elif lines[done + 1 :]:
        raise ValueError(f"behind the last line: {lines[done + 1]!r}")


def follow(script, replies, lines, is_whole):
    """Holds a record, or the beginning of one, to the replies, and plays its calls one after another, each with its reply."""
    cells = {place: placed(part) for place, part in script.opening}
    for line, call, reply in recorded(record(script, replies), lines, is_whole):
        if call:
            told, cells[call.place] = act(call, cells.get(call.place, AIR))
            if told != reply:
                raise ValueError(f"by the record before it, this is {told!r}: {line}")
