"""An evening of tools/live: as many players as there may be, who send 500 lines each at once, strangers, and then one who sends garbage, one who floods it, and one who
leaves and comes back. Every reply is the one that the script, which was written as it went, gives when it is played again."""
import math, os, random, re, socket, subprocess, sys, tempfile, threading

sys.dont_write_bytecode = True
ROOT = os.path.dirname(os.path.dirname(os.path.abspath(__file__)))
sys.path.insert(0, os.path.join(ROOT, "tools"))
import vx

# The players, a square of them; how many lines each sends, and how many he sends who leaves and comes back.
SIDE, LINES, LATE = math.isqrt(vx.MOST_PLAYERS), 500, 450
PLAYERS = SIDE * SIDE
# They build on both sides of this level, where a high world has its middle.
LEVEL = vx.HEIGHTS[0]
PARTS = ["stone", "dirt", "planks", "dust", "chest", "lever:down", "lamp", "piston:east", "torch:down"]


def lines_of(player):
    """A player's lines: most about his own corner, and some about places that all want."""
    chance = random.Random(player)
    for _ in range(LINES):
        x, y, z = chance.randrange(4), chance.randrange(LEVEL - 1, LEVEL + 1), chance.randrange(4)
        if chance.random() < 0.8:
            x, z = x + vx.CHUNK * (player % SIDE), z + vx.CHUNK * (player // SIDE)
        verb = chance.choice(["place", "place", "break", "look", "turn", "put", "take", "open", "explain"])
        behind = {"place": f" {chance.choice(PARTS)}", "put": f" {chance.randrange(4)} 7 9", "take": f" {chance.randrange(4)} 5"}.get(verb, "")
        yield f"explain block-place {x} {y} {z}" if verb == "explain" else f"{verb} {x} {y} {z}{behind}"


class Client:
    """Somebody at the other end of a line, and what he is told."""

    def __init__(self, port, lines):
        self.socket = socket.create_connection(("127.0.0.1", port), timeout=30)
        self.text = "".join(f"{line}\n" for line in lines).encode("latin-1")
        self.file = self.socket.makefile("r", encoding="ascii", newline="\n")
        self.sender = threading.Thread(target=self.send, daemon=True)
        self.sender.start()

    def send(self):
        """Sends all lines, unless he is cut off before."""
        try:
            self.socket.sendall(self.text)
        except OSError:
            pass

    def told(self, count):
        """So many replies, or those that come before the end; ticks and what they move, and who has joined, are none."""
        replies = []
        while len(replies) < count and (line := self.file.readline()):
            if not re.match("tick |moved |denied |beaten |joined ", line):
                replies.append(line.rstrip("\n"))
        return replies

    def sent(self):
        """He has sent all his lines."""
        self.sender.join()
        self.socket.shutdown(socket.SHUT_WR)

    def close(self):
        """Leaves."""
        self.file.close()
        self.socket.close()


class Host:
    """tools/live with a world of its own."""

    def __init__(self, program, folder):
        world, self.script = os.path.join(folder, "world.vx"), os.path.join(folder, "evening.vx")
        with open(world, "w") as text:
            text.write(f"world {SIDE} {SIDE} 1 {vx.HEIGHTS[-1]}\n" + "".join(f"player p{player}\n" for player in range(PLAYERS)) + "set 1 0 1 obsidian\n")
        command = [os.path.join(ROOT, "tools/live"), world, "--port", "0", "--tick-every", "20", "--script", self.script, "--program", program]
        pipe = subprocess.PIPE
        self.child = subprocess.Popen(command, stdin=pipe, stdout=pipe, stderr=pipe, text=True)
        self.tokens = {}
        while line := self.child.stdout.readline():
            if line.startswith("listens "):
                self.port = int(re.search("port ([0-9]+)", line)[1])
                return
            self.tokens[line.split()[1]] = line.rstrip("\n")
        raise ValueError("tools/live did not listen")

    def join(self, player, lines):
        """A player who joins and sends these lines."""
        return Client(self.port, [self.tokens[f"p{player}"], *lines])

    def console(self, line):
        """A line of the console."""
        self.child.stdin.write(line + "\n")
        self.child.stdin.flush()

    def stop(self):
        """Ends the evening while somebody is there who has not joined, and gives the status, what was told, and what went wrong."""
        idle, stranger = Client(self.port, []), Client(self.port, ["x"])
        # The stranger came last: once he is told that he is cut off, the idle one is in.
        stranger.told(1)
        out, wrong = self.child.communicate("stop\n", timeout=30)
        idle.close()
        stranger.close()
        return self.child.returncode, out, wrong


def replayed(program, script):
    """The replies to each player's lines, as the script gives them when it is played again."""
    with open(script, "rb") as text:
        ran = subprocess.run([program], stdin=text, capture_output=True, timeout=60)
    replies = {f"p{player}": [] for player in range(PLAYERS)}
    for words, told in vx.answered(vx.read_lines(script), vx.Replies(ran.stdout.decode().split("\n"))):
        if words[0] in ("as", "explain"):
            replies[words[1]].append(told[0])
    return ran.returncode, replies


def blocks_are_apart(script):
    """Raises a ValueError where two players of a block name one place, so that replies could be others when the script is played again, or where there is no block."""
    block, count = None, 0
    with open(script) as lines:
        for words in map(str.split, lines):
            if words[0] == "together":
                block, count = {}, count + 1
            elif words[0] == "end":
                block = None
            elif block is not None and block.setdefault(tuple(words[3:6]), words[1]) != words[1]:
                raise ValueError(f"two players of a block name {words[3:6]}")
    if not count:
        raise ValueError("nothing was done at once")


def check(program):
    """Plays the evening, and raises a ValueError where something is not as it should be."""
    with tempfile.TemporaryDirectory() as folder:
        host = Host(program, folder)
        try:
            told, wrongs = follow(host)
            status, out, wrong = host.stop()
        finally:
            host.child.kill()
        blocks_are_apart(host.script)
        again, replies = replayed(program, host.script)
        if (status, again, wrong) != (0, 0, ""):
            raise ValueError(f"status {status}, and {again} when it was played again: {out}{wrong}")
        for player, (begins, ends) in told.items():
            due = replies[player]
            if begins != due[: len(begins)] or ends != due[len(due) - len(ends) :] or not ends and len(begins) != LINES:
                raise ValueError(f"{player} was told {begins + ends}, and is told {due}")
        if wrongs:
            raise ValueError("; ".join(wrongs))


def follow(host):
    """What each player is told first and last in the course of the evening, and what is wrong with those who are cut off."""
    strangers = [
        (Client(host.port, ["join p1 0123456789abcdef", "break 1 0 1"]), 1, "cut off: join by `join NAME TOKEN`, with a name and a token of this evening"),
        (Client(host.port, ["x" * 5000]), 1, "cut off: a line has 4096 bytes at most"),
        (Client(host.port, ["\xff\x00 tick", "world 1 1 1"]), 1, "cut off: join by `join NAME TOKEN`, with a name and a token of this evening"),
    ]
    clients = [host.join(player, lines_of(player)) for player in range(PLAYERS)]
    host.console("region define middle cuboid 0 0 0 3 63 3")
    host.console("region owner middle add p1")
    told = {f"p{player}": (client.told(LINES), []) for player, client in enumerate(clients)}
    garbage = host.join(0, ["tick", "end", "as p1 look 0 0 0", "place 1 1", "\xe4", "break 1 0 1 1"] * 40)
    strangers.append((garbage, 1 << 20, "cut off: more than 100 lines were faulty"))
    flood = host.join(2, ["look 40 1 40"] * 20000)
    strangers.append((flood, 1 << 20, "cut off: 4096 lines at once, and 200 a second, are the most"))
    wrongs = [f"a line {due!r} is due, and not {last!r}" for client, count, due in strangers if (last := (client.told(count) or [""])[-1]) != due]
    begins, ends = come_and_go(host, list(lines_of(1))[:LATE])
    told["p1"] = told["p1"][0] + begins, ends
    return told, wrongs


def come_and_go(host, lines):
    """What a player is told who sends a third of his lines and reads the replies, sends another and leaves before he has read most of them, and comes back with the rest.
    Between the two parts there are replies that he has not read."""
    third = LATE // 3
    first = host.join(1, lines[:third])
    first.sent()
    begins = first.told(LATE)
    second = host.join(1, lines[third : 2 * third])
    begins += second.told(10)
    second.close()
    last = host.join(1, lines[2 * third :])
    last.sent()
    return begins, last.told(LATE)
