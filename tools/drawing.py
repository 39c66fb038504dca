"""A map as SVG: cells as coloured squares with signs, regions as outlines, denials as marks, and a legend."""
from html import escape

from vx import CHUNK

BLOCKS = {
    "stone": "#8d8f92",
    "dirt": "#8b5e34",
    "planks": "#c8a064",
    "glass": "#cfe6ee",
    "obsidian": "#2c2140",
    "bedrock": "#45454a",
    "chest": "#a3641f",
}
# The ground of parts that have a sign, by kind and the state that the colour tells.
GROUNDS = {
    "torch:on": "#ffd9a0",
    "torch:off": "#c9bdae",
    "lever:on": "#ffe680",
    "lever:off": "#d5cfc0",
    "repeater:on": "#f2a39b",
    "repeater:off": "#cdc9c6",
    "lamp:off:0": "#6b5330",
    "lamp:on:0": "#ffd23f",
    "lamp:on:1": "#e3b04b",
    "piston:in": "#b9a98c",
    "piston:out": "#b9a98c",
    "sticky:in": "#9fb98c",
    "sticky:out": "#9fb98c",
    "head:plain": "#dccfae",
    "head:sticky": "#c4dcae",
}
# Signs as strokes within a square of side 1, as they are where the part faces east.
SIGNS = {
    "chest": [[(0.15, 0.42), (0.85, 0.42)], [(0.5, 0.34), (0.5, 0.54)]],
    "torch:on": [[(1, 0.5), (0.6, 0.5), (0.4, 0.3), (0.2, 0.5), (0.4, 0.7), (0.6, 0.5)]],
    "torch:off": [[(1, 0.5), (0.3, 0.5)]],
    "lever:on": [[(0.9, 0.25), (0.9, 0.75)], [(0.9, 0.5), (0.3, 0.2)]],
    "lever:off": [[(0.9, 0.25), (0.9, 0.75)], [(0.9, 0.5), (0.3, 0.8)]],
    "repeater:on": [[(0.45, 0.25), (0.85, 0.5), (0.45, 0.75)]],
    "repeater:off": [[(0.45, 0.25), (0.85, 0.5), (0.45, 0.75)]],
    "piston:in": [[(0.15, 0.5), (0.85, 0.5)], [(0.85, 0.15), (0.85, 0.85)]],
    "piston:out": [[(0.15, 0.5), (1, 0.5)], [(0.15, 0.3), (0.15, 0.7)]],
    "head:plain": [[(0, 0.5), (0.85, 0.5)], [(0.85, 0.1), (0.85, 0.9)]],
}
SIGNS |= {f"sticky:{state}": SIGNS[f"piston:{state}"] for state in ("in", "out")} | {"head:sticky": SIGNS["head:plain"]}
# What faces up or down has one of these signs: the tip of an arrow, or its tail.
UPRIGHT = {"up": [[(0.35, 0.5), (0.65, 0.5)], [(0.5, 0.35), (0.5, 0.65)]], "down": [[(0.3, 0.3), (0.7, 0.7)], [(0.3, 0.7), (0.7, 0.3)]]}
TURNS = {
    "east": lambda x, y: (x, y),
    "south": lambda x, y: (1 - y, x),
    "west": lambda x, y: (1 - x, 1 - y),
    "north": lambda x, y: (y, 1 - x),
}
LINES = ["#0b5fa5", "#b3261e", "#1b7f3b", "#8a3fb0", "#b36b00", "#00798c", "#8f1d5c", "#4d5b00"]
GROUND, INK = "#f5f2ea", "#222"
MARGIN, HEAD, ENTRY, ROW = 36, 52, 180, 24
# Signs are drawn from so many pixels a cell on, and the levels of dust as numbers; and so many lines of denials stand in one tooltip.
SIGN_PIXELS, NUMBER_PIXELS, TIPS = 5, 14, 8
DUST = "dust"


def look_of(text):
    """The kind of a cell with the state that its colour tells, and where it faces, if it does."""
    kind, *state = text.split(":")
    if kind == "dust":
        return text, None
    if kind == "repeater":
        return f"repeater:{state[2]}", state[0]
    if kind in BLOCKS or kind == "lamp":
        return text, None
    return f"{kind}:{state[1]}", state[0]


def colour(look):
    """The colour of a kind with its state. Dust goes from dark to bright with its level."""
    kind, _, level = look.partition(":")
    if kind == DUST:
        share = int(level) / 15
        return f"#{int(70 + 185 * share):02x}{int(10 + 40 * share):02x}{int(10 + 20 * share):02x}"
    return BLOCKS.get(kind) or GROUNDS[look]


def strokes(look, facing, text):
    """The strokes of a cell's sign."""
    sign = SIGNS.get(look, [])
    if look.startswith("repeater"):
        delay = int(text.split(":")[2])
        sign = sign + [[(0.1 + 0.09 * at, 0.3), (0.1 + 0.09 * at, 0.7)] for at in range(delay)]
    if facing in UPRIGHT:
        return UPRIGHT[facing] + ([[(0.15, 0.15), (0.85, 0.15)]] if look.endswith((":on", ":out")) else [])
    turn = TURNS[facing or "east"]
    return [[turn(*point) for point in stroke] for stroke in sign]


def short(value):
    """A number of at most two digits behind the point."""
    return f"{value:.2f}".rstrip("0").rstrip(".")


def runs(columns):
    """Columns as runs from west to east: the first column of each, and how many it has."""
    begin = last = None
    for x, z in sorted(columns, key=lambda column: column[::-1]):
        if last == (x - 1, z):
            last = x, z
            continue
        if begin:
            yield *begin, last[0] - begin[0] + 1
        begin = last = x, z
    if begin:
        yield *begin, last[0] - begin[0] + 1


def line_of(region):
    """The colour of a region's outline."""
    return LINES[(region.number - 1) % len(LINES)]


class Drawing:
    """The map of some columns."""

    def __init__(self, title, box, cells):
        self.title, self.cells = title, cells
        self.west, self.north, self.east, self.south = box
        across, along = self.east - self.west + 1, self.south - self.north + 1
        self.cell = max(3, min(40, 1200 // max(across, along)))
        self.width, self.height = across * self.cell, along * self.cell

    def lines(self, regions, denials):
        """The lines of the file."""
        regions = sorted(regions, key=lambda region: region.number)
        legend, rows = self.legend(bool(regions), denials)
        width, height = max(self.width, 2 * ENTRY) + 2 * MARGIN, HEAD + self.height + rows * ROW + MARGIN
        yield f'<svg xmlns="http://www.w3.org/2000/svg" width="{width}" height="{height}" viewBox="0 0 {width} {height}"'
        yield f' font-family="sans-serif" font-size="11" fill="{INK}">'
        yield f"<title>{escape(self.title)}</title>"
        yield f'<rect width="{width}" height="{height}" fill="#fff"/>'
        yield f'<text x="{MARGIN}" y="20" font-size="14">{escape(self.title)}</text>'
        yield f'<clipPath id="map"><rect width="{self.width}" height="{self.height}"/></clipPath>'
        yield f'<g transform="translate({MARGIN} {HEAD})">'
        yield from self.ground()
        yield f'<g transform="scale({self.cell})">'
        yield from self.squares()
        yield "</g>"
        yield '<g clip-path="url(#map)" fill="none" stroke-width="2">'
        for region in regions:
            yield from self.region(region)
        for (x, z, is_machine), texts in sorted(denials.items()):
            tips = texts[:TIPS] + [f"and {len(texts) - TIPS} more"] * (len(texts) > TIPS)
            yield from self.mark(*self.pixel(x + 0.5, z + 0.5), max(4, self.cell / 4), is_machine, "\n".join(tips))
        yield "</g>"
        for region in regions:
            yield from self.label(region)
        yield "</g>"
        yield f'<g transform="translate({MARGIN} {HEAD + self.height + ROW})">'
        yield from legend
        yield "</g></svg>"

    def pixel(self, x, z):
        """Where a point of the world is on the map."""
        return (x - self.west) * self.cell, (z - self.north) * self.cell

    def ground(self):
        """The ground, the borders of chunks, and their coordinates."""
        yield f'<rect width="{self.width}" height="{self.height}" fill="{GROUND}" stroke="#999"/>'
        path, names = "", []
        for x in range(-(-self.west // CHUNK) * CHUNK, self.east + 1, CHUNK):
            at = self.pixel(x, 0)[0]
            path += f"M{at} 0V{self.height}"
            names.append(f'<text x="{at + 2}" y="-5">{x}</text>')
        for z in range(-(-self.north // CHUNK) * CHUNK, self.south + 1, CHUNK):
            at = self.pixel(0, z)[1]
            path += f"M0 {at}H{self.width}"
            names.append(f'<text x="-5" y="{at + 11}" text-anchor="end">{z}</text>')
        yield f'<path d="{path}" stroke="#ddd6c6"/>'
        yield '<g fill="#777" font-size="10">' + "".join(names) + "</g>"

    def squares(self):
        """A path for the squares of each text of a cell, and one for their signs."""
        by_text = {}
        for column, text in self.cells.items():
            by_text.setdefault(text, []).append(column)
        for text, columns in sorted(by_text.items()):
            look, facing = look_of(text)
            square = "".join(f"M{x - self.west} {z - self.north}h{count}v1h-{count}z" for x, z, count in runs(columns))
            yield f'<path d="{square}" fill="{colour(look)}"><title>{text}</title></path>'
            if look.startswith(DUST) and self.cell >= NUMBER_PIXELS:
                yield from self.levels(look.partition(":")[2], sorted(columns))
            signs = strokes(look, facing, text)
            if signs and self.cell >= SIGN_PIXELS:
                path = "".join(self.stroke(stroke, x - self.west, z - self.north) for x, z in sorted(columns) for stroke in signs)
                yield f'<path d="{path}" fill="none" stroke="{INK}" stroke-width="0.08" pointer-events="none"/>'

    def levels(self, level, columns):
        """The level of dust, as a number in each of its squares."""
        yield '<g fill="#fff" font-size="0.5" text-anchor="middle" pointer-events="none">'
        yield "".join(f'<text x="{x - self.west}.5" y="{z - self.north}.68">{level}</text>' for x, z in columns)
        yield "</g>"

    @staticmethod
    def stroke(points, x, z):
        """A stroke of a sign at a column."""
        return "M" + "L".join(f"{short(x + at)} {short(z + along)}" for at, along in points)

    def region(self, region):
        """The outline of a region, with its id and number."""
        ink = line_of(region)
        dash = "" if region.is_in_force else ' stroke-dasharray="6 4"'
        title = f"<title>{escape(self.told(region))}</title>"
        if region.shape[0] == "cuboid":
            left, top, right, bottom = self.sides(region)
            yield f'<rect x="{left}" y="{top}" width="{right - left}" height="{bottom - top}" stroke="{ink}"{dash}>{title}</rect>'
        else:
            points = " ".join("{:g},{:g}".format(*self.pixel(x + 0.5, z + 0.5)) for x, z in region.corners())
            yield f'<polygon points="{points}" stroke="{ink}"{dash}>{title}</polygon>'

    def sides(self, region):
        """The left, upper, right and lower side of the box around a region."""
        across, along = zip(*region.corners())
        return *self.pixel(min(across), min(along)), *self.pixel(max(across) + 1, max(along) + 1)

    def label(self, region):
        """The id and the number where there is room for them, or the number alone: in the corner of a box, and at the first point of a polygon."""
        left, top, right, bottom = self.sides(region)
        begin = left if region.shape[0] == "cuboid" else self.pixel(*region.corners()[0])[0]
        top = max(top if region.shape[0] == "cuboid" else self.pixel(*region.corners()[0])[1], 0)
        begin, room = max(begin, 0), min(right, self.width) - max(left, 0)
        for text in (f"{region.id} ({region.number})", str(region.number)):
            if len(text) * 6.5 + 4 <= room and bottom > 0 and top < self.height:
                halo = 'stroke="#fff" stroke-width="3" stroke-linejoin="round" paint-order="stroke"'
                yield f'<text x="{begin + 4}" y="{top + 13}" fill="{line_of(region)}" {halo}>{text}</text>'
                return

    @staticmethod
    def told(region):
        """A region in words."""
        low, high = region.heights()
        words = [f"{region.id}: region {region.number}, y {low} to {high}, priority {region.priority}"]
        words += [f"child of {region.parent}"] if region.parent else []
        words += [f"owners {', '.join(region.owners)}"] if region.owners else []
        words += [f"members {', '.join(region.members)}"] if region.members else []
        words += [f"domains {', '.join(region.domains)}"] if region.domains else []
        words += [f"{flag} {setting}" for flag, setting in region.flags.items()]
        words += [] if region.is_in_force else ["this counts from the next tick on"]
        return "\n".join(words)

    @staticmethod
    def mark(x, y, size, is_machine, tip):
        """The mark of a denial, of half this size, with a tooltip."""
        west, north, whole = short(x - size), short(y - size), short(2 * size)
        shape = f'<path d="M{west} {north}l{whole} {whole}m0-{whole}l-{whole} {whole}"/>'
        if is_machine:
            shape = f'<circle cx="{short(x)}" cy="{short(y)}" r="{short(1.2 * size)}"/>'
            shape += f'<path d="M{short(x + size * 0.8)} {short(y - size * 0.8)}l-{short(1.6 * size)} {short(1.6 * size)}"/>'
        ink = "#7b1fa2" if is_machine else "#d3120f"
        yield f'<g pointer-events="all"><g stroke="#fff" stroke-width="5">{shape}</g><g stroke="{ink}">{shape}</g><title>{escape(tip)}</title></g>'

    def legend(self, has_regions, denials):
        """The legend of what is on the map, and how many rows it takes."""
        shown = {}
        for text in sorted(set(self.cells.values()), key=lambda text: (look_of(text)[1] in UPRIGHT, text)):
            look, _ = look_of(text)
            shown.setdefault("dust, level 0 to 15" if look.startswith(DUST) else look.removesuffix(":0").replace(":", ", "), text)
        shown = {name.replace("lamp, on, 1", "lamp, on for its last tick"): text for name, text in shown.items()}
        entries = [(name, list(self.swatch(text))) for name, text in sorted(shown.items())]
        if has_regions:
            entries.append(("region, with its number", [f'<rect x="1" y="1" width="14" height="14" fill="none" stroke="{LINES[0]}" stroke-width="2"/>']))
        for is_machine, name in ((False, "a player was denied"), (True, "a machine was denied")):
            if any(key[2] == is_machine for key in denials):
                entries.append((name, ['<g fill="none" stroke-width="2">', *self.mark(8, 8, 4, is_machine, name), "</g>"]))
        across = max(2, self.width // ENTRY)
        lines = []
        for at, (name, swatch) in enumerate(entries):
            lines.append(f'<g transform="translate({at % across * ENTRY} {at // across * ROW})">')
            lines += [*swatch, f'<text x="22" y="12">{name}</text></g>']
        return lines, -(-len(entries) // across) + 1

    def swatch(self, text):
        """A cell of the legend; dust has all its levels."""
        look, facing = look_of(text)
        if look.startswith(DUST):
            for level in range(16):
                yield f'<rect x="{level}" width="1" height="16" fill="{colour(f"dust:{level}")}"/>'
            return
        yield f'<rect width="16" height="16" fill="{colour(look)}"/>'
        path = "".join(self.stroke(stroke, 0, 0) for stroke in strokes(look, facing, text))
        if path:
            yield f'<path d="{path}" transform="scale(16)" fill="none" stroke="{INK}" stroke-width="0.08"/>'
