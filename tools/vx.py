"""What the tools share: the lines of scripts and replies by docs/FORMATS.md, the regions that edits leave, and the program as a child process."""
import os, queue, re, subprocess, sys, threading
from dataclasses import dataclass, field

ROOT = os.path.dirname(os.path.dirname(os.path.abspath(__file__)))
LINE_BYTES, SCRIPT_BYTES, BLOCK_COMMANDS = 4096, 16_777_216, 65_536
# How many cells a world may be high, the first where its line doesn't say it; how many columns a chunk has on a side; the most sectors each way; and the most players.
HEIGHTS, CHUNK, MOST_SECTORS, MOST_PLAYERS = (64, 128), 16, 16, 64
# A piston's move takes its own cell, the twelve that it pushes at most, and the one behind them.
REACH = 13
DIRECTIONS = {"east": (1, 0, 0), "west": (-1, 0, 0), "up": (0, 1, 0), "down": (0, -1, 0), "south": (0, 0, 1), "north": (0, 0, -1)}
SIDES = [facing for facing in DIRECTIONS if facing not in ("up", "down")]
FLAGS = ["build", "block-break", "block-place", "use", "chest-access", "passthrough", "pistons"]
ACTIONS = ["block-place", "block-break", "use", "chest-access"]
GROUPS = ["all", "members", "owners", "nonmembers", "nonowners"]
FATES = ("moved", "denied", "beaten")
PARTS = {
    *["stone", "dirt", "planks", "glass", "obsidian", "bedrock", "chest", "dust", "lamp"],
    *[f"torch:{facing}" for facing in DIRECTIONS if facing != "up"],
    *[f"{kind}:{facing}" for kind in ("lever", "piston", "sticky") for facing in DIRECTIONS],
    *[f"repeater:{facing}:{delay}" for facing in SIDES for delay in range(1, 5)],
}

# What stands behind the first words of a line. A word in capitals is read by `READERS`, and `..` takes all that is left.
COMMANDS = {
    "look": "X Y Z",
    "place": "X Y Z PART",
    "break": "X Y Z",
    "turn": "X Y Z",
    "open": "X Y Z",
    "put": "X Y Z SLOT ITEM COUNT",
    "take": "X Y Z SLOT COUNT",
}
EDITS = {
    "define": "ID SHAPE ..",
    "reshape": "ID SHAPE ..",
    "remove": "ID",
    "priority": "ID N",
    "parent": "ID ID",
    "flag": "ID FLAG STATE [GROUP]",
    "clear": "ID FLAG",
    "owner": "ID CHANGE NAME",
    "member": "ID CHANGE NAME",
    "domain": "ID CHANGE NAME",
}
HEADER = {"world": "SX SZ S [H]", "player": "NAME", "set": "X Y Z PART"}
OTHERS = {"tick": "", "explain": "NAME ACTION X Y Z", "together": "", "end": ""}


class Faulty(ValueError):
    """A line that a script may not have, with words for whoever wrote it."""


def number(word, low=-(2**31), high=2**31 - 1):
    """The number that a word is, within two ends."""
    digits = word.removeprefix("-")
    if not (digits.isascii() and digits.isdigit()):
        raise Faulty(f"{word} is no number")
    # No line is long enough for a number that Python refuses to read.
    if not low <= int(word) <= high:
        raise Faulty(f"{word} is no number from {low} to {high}")
    return int(word)


def one_of(words, what):
    """Reads one of these words, which are what."""

    def read(word):
        """Raises Faulty where a word is none of them."""
        if word not in words:
            raise Faulty(f"{word} is not {what}")

    return read


def within(low, high):
    """Reads a number within two ends."""
    return lambda word: number(word, low, high)


def height(word):
    """Reads how many cells a world is high."""
    if number(word) not in HEIGHTS:
        raise Faulty(f"{word} is not {' or '.join(map(str, HEIGHTS))}")


def any_word(_):
    """Reads a word of which the reply tells what is wrong with it."""


READERS = {
    **dict.fromkeys(["X", "Y", "Z", "N"], number),
    **dict.fromkeys(["SLOT", "COUNT"], within(0, 255)),
    **dict.fromkeys(["SX", "SZ"], within(1, MOST_SECTORS)),
    **dict.fromkeys(["ID", "NAME"], any_word),
    "S": within(1, 2),
    "[H]": height,
    "ITEM": within(0, 65535),
    "PART": one_of(PARTS, "a part"),
    "FLAG": one_of(FLAGS, "a flag"),
    "STATE": one_of(("allow", "deny"), "allow or deny"),
    "[GROUP]": one_of(GROUPS, "a group"),
    "CHANGE": one_of(("add", "drop"), "add or drop"),
    "ACTION": one_of(ACTIONS, "an action"),
    "SHAPE": one_of(("cuboid", "polygon"), "cuboid or polygon"),
}


def words_of(line):
    """The words of a line, none where it says nothing."""
    return [] if line.startswith("#") else line.split()


def check_text(text):
    """Raises Faulty where a line is too long, or has a byte that no line has."""
    if len(text) > LINE_BYTES:
        raise Faulty(f"a line has {LINE_BYTES} bytes at most")
    if not (text.isascii() and text.isprintable()):
        raise Faulty("a line has printable ASCII letters and spaces alone")


def check_form(start, form, words):
    """Raises Faulty where words are not of a form."""
    names = form.split()
    is_open, least = ".." in names, sum(not name.startswith("[") and name != ".." for name in names)
    if len(words) < least or not is_open and len(words) > len(names):
        raise Faulty(f"a line is `{f'{start} {form}'.strip()}`")
    for name, word in zip(names, words):
        if name != "..":
            READERS[name](word)
    if is_open:
        check_shape(start, words[least - 1], words[least:])


def check_shape(start, kind, words):
    """Raises Faulty where words are not the numbers of a shape."""
    for word in words:
        number(word)
    if kind == "cuboid" and len(words) != 6:
        raise Faulty(f"a box is `{start} ID cuboid X1 Y1 Z1 X2 Y2 Z2`")
    if kind == "polygon" and (len(words) < 2 or len(words) % 2):
        raise Faulty(f"a polygon is `{start} ID polygon Y0 Y1 X1 Z1 X2 Z2 ..`")


def check_command(words):
    """Raises Faulty where words are no command as it stands behind a player's name."""
    if not words or words[0] not in COMMANDS:
        raise Faulty(f"a command is {', '.join(COMMANDS)}")
    check_form(words[0], COMMANDS[words[0]], words[1:])


def check_line(words, players):
    """Raises Faulty where words are no line of a script with these players."""
    first = words[0]
    if first in ("as", "explain") and (len(words) < 2 or words[1].lower() not in players):
        raise Faulty(f"no such player: {' '.join(words[1:2])}")
    if first == "as":
        check_command(words[2:])
    elif first == "region":
        if len(words) < 2 or words[1] not in EDITS:
            raise Faulty(f"an edit is {', '.join(EDITS)}")
        check_form(f"region {words[1]}", EDITS[words[1]], words[2:])
    elif first in HEADER or first in OTHERS:
        check_form(first, (HEADER | OTHERS)[first], words[1:])
    else:
        raise Faulty(f"no line begins with {first}")


@dataclass
class Header:
    """The world as it opens."""

    size: tuple = None
    height: int = HEIGHTS[0]
    players: list = field(default_factory=list)
    cells: dict = field(default_factory=dict)

    def take(self, words):
        """Takes in a line, and tells whether it is one of the header. It raises Faulty where such a line is not as it has to be."""
        if words[0] not in HEADER:
            return False
        check_form(words[0], HEADER[words[0]], words[1:])
        if words[0] == "world":
            self.size = tuple(map(int, words[1:4]))
            self.height = int(words[4]) if len(words) > 4 else HEIGHTS[0]
        elif words[0] == "player":
            self.players.append(words[1].lower())
        elif words[0] == "set":
            self.cells[place_of(words[1:4])] = words[4]
        return True

    def columns(self):
        """How many columns the world has from west to east, and from north to south."""
        return self.size[0] * self.size[2] * CHUNK, self.size[1] * self.size[2] * CHUNK


def header_of(lines):
    """The header of a script, and how many lines it takes."""
    header = Header()
    for count, line in enumerate(lines):
        try:
            check_text(line)
            words = words_of(line)
            if words and not header.take(words):
                return header, count
        except Faulty as wrong:
            raise Faulty(f"line {count + 1} of the script: {wrong}") from None
    return header, len(lines)


def is_open_behind(first, is_open):
    """Whether a block is open behind a line that begins so, where one was open before it or not."""
    return first == "together" or is_open and first != "end"


def has_open_block(lines):
    """Whether the last block of these lines has no end."""
    is_open = False
    for words in filter(None, map(words_of, lines)):
        is_open = is_open_behind(words[0], is_open)
    return is_open


def check_script(lines):
    """Raises Faulty at the first line that a script may not have, and gives its players."""
    header, is_body, is_open = Header(), False, False
    for count, line in enumerate(lines, 1):
        try:
            check_text(line)
            words = words_of(line)
            if words:
                check_order(words[0], header, is_body, is_open)
                check_line(words, header.players)
                check_header(words, header)
                header.take(words)
                is_body, is_open = is_body or words[0] not in HEADER, is_open_behind(words[0], is_open)
        except Faulty as wrong:
            raise Faulty(f"line {count} of the script: {wrong}") from None
        if is_body:
            check_count(header.players)
    check_count(header.players)
    if is_open:
        raise Faulty("the script has a block without an end")
    return header.players


def check_count(players):
    """Raises Faulty where there are more players than a world may have."""
    if len(players) > MOST_PLAYERS:
        raise Faulty(f"the header has more than {MOST_PLAYERS} players")


def check_order(first, header, is_body, is_open):
    """Raises Faulty where no line that begins so may stand: behind this header, behind a line of the body, or in a block."""
    if is_open and first not in ("as", "end"):
        raise Faulty("a block has commands alone, up to its `end`")
    if first == "end" and not is_open:
        raise Faulty("no block has begun")
    if first in HEADER and is_body:
        raise Faulty("the header has ended before it")
    if first == "world" and header.size or first != "world" and not header.size:
        raise Faulty("the first line says the size of the world, `world SX SZ S`, and no other does")
    if first not in HEADER and not header.players:
        raise Faulty("the header has no player")


def check_header(words, header):
    """Raises Faulty where a line of the header does not fit those before it."""
    if words[0] == "player":
        if not re.fullmatch("[A-Za-z0-9_]{1,16}", words[1]):
            raise Faulty("a name is 1 to 16 letters, digits or _")
        if words[1].lower() in header.players:
            raise Faulty(f"{words[1]} is a player already")
    elif words[0] == "set":
        sizes = header.columns()[0], header.height, header.columns()[1]
        if not all(0 <= at < size for at, size in zip(place_of(words[1:4]), sizes)):
            raise Faulty("there is no such place in this world")


def place_of(words):
    """The place that three words are."""
    return tuple(map(int, words))


def open_text(file):
    """A file as text, `-` for the standard input. A byte that is no ASCII is replaced."""
    is_input = file == "-"
    return open(0 if is_input else file, encoding="ascii", errors="replace", closefd=not is_input)


def read_lines(file):
    """The lines of a script, or of replies, a letter for each byte; `-` is the standard input."""
    if file == "-":
        text = sys.stdin.buffer.read()
    else:
        with open(file, "rb") as opened:
            text = opened.read()
    lines = text.decode("latin-1").split("\n")
    return lines if lines[-1] else lines[:-1]


def edits_of_file(file):
    """The edits that a regions file means, as the words of `region` lines."""
    import tomllib

    with open(file, "rb") as opened:
        policy = tomllib.load(opened)
    regions = policy.get("region", [])
    for region in regions:
        shape = ["cuboid", *region["cuboid"]] if "cuboid" in region else ["polygon", *region["y"], *region["polygon"]]
        yield ["region", "define", region["id"], *map(str, shape)]
    for region in regions:
        for verb in ("priority", "parent"):
            if verb in region:
                yield ["region", verb, region["id"], str(region[verb])]
        for role in ("owner", "member", "domain"):
            for name in region.get(role + "s", []):
                yield ["region", role, region["id"], "add", name]
        yield from flag_edits(region["id"], region.get("flags", {}))
    yield from flag_edits("__global__", policy.get("global", {}))


def flag_edits(region, flags):
    """The edits that set these flags."""
    for flag, setting in flags.items():
        yield ["region", "flag", region, flag, *setting.split()]


@dataclass
class Region:
    """A region as accepted edits leave it. A shape is its kind and its numbers."""

    number: int
    id: str
    shape: tuple
    is_in_force: bool
    priority: int = 0
    parent: str = None
    owners: list = field(default_factory=list)
    members: list = field(default_factory=list)
    domains: list = field(default_factory=list)
    flags: dict = field(default_factory=dict)

    def heights(self):
        """The lowest and the highest y."""
        kind, numbers = self.shape
        return sorted((numbers[1], numbers[4])) if kind == "cuboid" else numbers[:2]

    def corners(self):
        """The points of a polygon, or two corners of a box, as columns."""
        kind, numbers = self.shape
        if kind == "cuboid":
            return [(numbers[0], numbers[2]), (numbers[3], numbers[5])]
        return list(zip(numbers[2::2], numbers[3::2]))


class Policy:
    """The regions that accepted edits leave, without the world at large, and the id of each number that was ever given."""

    def __init__(self, file=None):
        self.regions, self.ids = {}, {0: "the world at large"}
        if file:
            self.read(file)

    def read(self, file):
        """Takes in a regions file, which is in force as the world opens."""
        try:
            for words in edits_of_file(file):
                self.accept(words)
        except ImportError:
            raise Faulty("a regions file is read by Python 3.11 or a later one") from None
        except (AttributeError, KeyError, TypeError, ValueError) as wrong:
            raise Faulty(f"{file} is no regions file: {type(wrong).__name__}: {wrong}") from None
        self.tick()

    def accept(self, words):
        """Takes in an accepted edit."""
        verb, name, rest = words[1], words[2].lower(), words[3:]
        if verb == "define":
            number = len(self.ids)
            self.ids[number] = name
            self.regions[name] = Region(number, name, self.shape(rest), False)
        elif verb == "remove":
            del self.regions[name]
        elif name in self.regions:
            self.change(self.regions[name], verb, rest)

    def change(self, region, verb, rest):
        """Makes an accepted change of a region."""
        if verb == "reshape":
            region.shape, region.is_in_force = self.shape(rest), False
        elif verb == "priority":
            region.priority = int(rest[0])
        elif verb == "parent":
            region.parent = None if rest[0] == "*" else rest[0].lower()
        elif verb in ("flag", "clear"):
            region.flags.pop(rest[0], None)
            region.flags |= {rest[0]: " ".join(rest[1:])} if verb == "flag" else {}
        else:
            names, player = getattr(region, verb + "s"), rest[1].lower()
            if player in names:
                names.remove(player)
            if rest[0] == "add":
                names.append(player)

    @staticmethod
    def shape(words):
        """A shape of its words."""
        return words[0], [int(word) for word in words[1:]]

    def tick(self):
        """All edits so far are in force."""
        for region in self.regions.values():
            region.is_in_force = True


class Replies:
    """Lines of replies, one after another; the next one may be looked at before it is taken."""

    def __init__(self, lines):
        self.lines, self.next = iter(lines), None

    def look(self):
        """The next line, or none at the end."""
        if self.next is None:
            self.next = next(self.lines, None)
        return self.next

    def take(self):
        """Takes the next line, or none at the end."""
        line = self.look()
        self.next = None
        return line


def answered(lines, replies):
    """Each line of a script's body that has replies, as its words, with them. Those of a block come at its end. It stops where replies run out."""
    block = None
    for line in lines:
        words = words_of(line)
        if not words or words[0] in HEADER:
            continue
        if words[0] == "together":
            block = []
        elif block is not None and words[0] != "end":
            block.append(words)
        else:
            asked, block = [words] if block is None else block, None
            for words in asked:
                told = [replies.take()]
                if told[0] is None:
                    return
                while words[0] == "tick" and (replies.look() or "").startswith(FATES):
                    told.append(replies.take())
                yield words, told


class Program:
    """The program at play: a child that a thread of its own feeds, so that what is asked never waits for what is told."""

    def __init__(self, program, options=()):
        command = [program, *options] if program else [os.path.join(ROOT, "run"), *options, "-"]
        self.child = subprocess.Popen(command, stdin=subprocess.PIPE, stdout=subprocess.PIPE)
        self.texts = queue.SimpleQueue()
        self.feeder = threading.Thread(target=self.feed, daemon=True)
        self.feeder.start()

    def feed(self):
        """Hands on what is asked, up to its end. A program that has ended takes no more; its status tells."""
        try:
            while (text := self.texts.get()) is not None:
                self.child.stdin.write(text.encode("latin-1"))
                self.child.stdin.flush()
            self.child.stdin.close()
        except BrokenPipeError:
            pass

    def ask(self, lines):
        """Hands lines to the program."""
        self.texts.put("".join(f"{line}\n" for line in lines))

    def told(self):
        """The lines that the program writes."""
        for line in self.child.stdout:
            yield line.decode("ascii", "replace").rstrip("\n")

    def close(self):
        """Tells the program that nothing more comes."""
        self.texts.put(None)

    def end(self):
        """Passes over what is told and not read, and gives the program's status."""
        for _ in self.child.stdout:
            pass
        return self.child.wait()


def explained(status, lines):
    """A program's status. Where it ended at a faulty line of its script it raises Faulty, with
    words for that line."""
    if status == 1:
        check_script(lines)
    return status


def run(main):
    """Runs a tool, which gives its status. A line of words tells what it cannot do; where nobody
    reads what it writes, or it is interrupted, it just ends."""
    try:
        status = main()
        sys.stdout.flush()
    except BrokenPipeError:
        os.dup2(os.open(os.devnull, os.O_WRONLY), sys.stdout.fileno())
        status = 1
    except OSError as wrong:
        status = f"{os.path.basename(sys.argv[0])}: {wrong.strerror}" + (f": {wrong.filename}" if wrong.filename else "")
    except Faulty as wrong:
        status = f"{os.path.basename(sys.argv[0])}: {wrong}"
    except KeyboardInterrupt:
        status = 130
    sys.exit(status)


def add_program(parser):
    """Adds the options that a tool hands on to the program."""
    parser.add_argument("--regions", metavar="FILE", help="the regions file that stands as the world opens")
    parser.add_argument("--program", metavar="PROGRAM", help="the built server; ./run of the repository if it is not given")


def options_of(given):
    """The options of the program by those of a tool."""
    return ["--regions", given.regions] if given.regions else []
