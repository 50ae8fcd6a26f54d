#!/usr/bin/env python3
"""house.py [--check]: the picture of the crates, docs/house.svg, drawn from crates.txt.

A column for each family, a row for each layer. A crate's layer is one more than the highest among the crates of the
repository that it rests on. A line rises from a crate to each crate that rests on it; a line that others imply is left
out. With --check nothing is written, and the status is 1 where the file is not what crates.txt gives.

In order: what crates.txt says; where the boxes stand; where the lines run; the drawing.
"""

import colorsys
import re
import sys
from itertools import permutations, zip_longest
from pathlib import Path

ROOT = Path(__file__).resolve().parent.parent
PICTURE = ROOT / "docs" / "house.svg"

# All sizes are pixels.
FONT = 11.5
GLYPH = 0.602 * FONT  # the width of a letter: names are monospaced
LINE = 13
HEADING = 5.8  # the width of a letter of a family's name, less what the column is wider than its boxes
PADDING = 5  # beside a name in its box
BOX = 31  # the height of a box
STACK = 3  # boxes of one family and one layer, one above the other; more stand side by side
GUTTER = 13  # between two boxes side by side
MARGIN = 26  # left of the first column, for the numbers of the layers
HEAD = 34  # above the highest layer, for the names of the families
FOOT = 42  # below the lowest, for how the picture is read
CLEAR = 4  # between a line and a box beside it
LANE = 5  # between two lines side by side
CORNER = 4
COLOURS = [(210, 18), (212, 78), (172, 85), (20, 88), (275, 48), (340, 70), (112, 60), (44, 95), (12, 28), (193, 88)]


class Wrong(Exception):
    """What is wrong with crates.txt, as a sentence."""


# ---- what crates.txt says


def read(text):
    """The families in their order, the family of each crate, and the crates of this repository that it rests on.

    A line is `NAME: CRATE CRATE ..`; of a static library, `NAME staticlib: CRATE CRATE ..`.
    """
    family, family_of, words = None, {}, {}
    for number, line in enumerate(text.splitlines(), 1):
        heading = re.fullmatch(r"# ([a-z_]+(?:, [a-z_]+)*): .*", line)
        if heading:
            family = heading[1]
        line = line.split("#")[0].strip()
        if not line:
            continue
        name, colon, rest = line.partition(":")
        name = name.removesuffix(" staticlib")
        if not colon or not family or name in words:
            raise Wrong(f"line {number} of crates.txt is no new crate below the heading of a family")
        family_of[name], words[name] = family, rest.split()
    if not words:
        raise Wrong("crates.txt lists no crate")
    rests_on = {name: [word for word in rest if word in words] for name, rest in words.items()}
    return list(dict.fromkeys(family_of.values())), family_of, rests_on


def layers(rests_on):
    """The layer of each crate."""
    found = {}

    def layer(name, above):
        if name in above:
            raise Wrong(f"in crates.txt {name} rests on itself")
        if name not in found:
            found[name] = 1 + max((layer(below, above + [name]) for below in rests_on[name]), default=-1)
        return found[name]

    return {name: layer(name, []) for name in rests_on}


def reduced(rests_on, layer_of):
    """What each crate rests on, without what it rests on through another."""
    reached = {}
    for name in sorted(rests_on, key=layer_of.get):
        reached[name] = {name}.union(*(reached[below] for below in rests_on[name]))
    return {
        name: [below for below in rest if not any(below in reached[other] for other in rest if other != below)]
        for name, rest in rests_on.items()
    }


# ---- where the boxes stand


class Box:
    """A crate. Rows are counted upwards; `top` is a height in the picture, known once all lines are."""

    def __init__(self, name, row, left, width):
        self.name, self.row, self.left, self.right = name, row, left, left + width
        self.middle = left + width // 2
        self.label = (name,) if width_of(name) <= width else broken(name)
        self.ends = {}  # where the line of each crate that it rests on meets its lower edge
        self.top = None


def broken(name):
    """A name in two lines, broken before the underscore that makes the longer line shortest."""
    breaks = [(name[: at.start()], name[at.start() :]) for at in re.finditer("_", name)]
    return min(breaks, key=lambda lines: max(map(len, lines)), default=(name,))


def width_of(*lines):
    return round(max(map(len, lines)) * GLYPH) + 2 * PADDING


def rows_of(crates, side_by_side):
    """The crates of a family in a layer, as rows of so many."""
    return [crates[start : start + side_by_side] for start in range(0, len(crates), side_by_side)]


def place(families, family_of, layer_of):
    """The boxes, the columns as (left, right), and the layer of each row."""
    count = max(layer_of.values()) + 1
    cells, columns, boxes, left = {}, [], {}, MARGIN
    for family in families:
        members = [[n for n in layer_of if (family_of[n], layer_of[n]) == (family, at)] for at in range(count)]
        side_by_side = -(-max(map(len, members)) // STACK)
        cells[family] = [rows_of(crates, side_by_side) for crates in members]
    tall = [max(len(cells[family][layer]) for family in families) for layer in range(count)]
    for family in families:
        lines = [line for cell in cells[family] for line in cell]
        widths = [max(width_of(*broken(name)) for name in stack if name) for stack in zip_longest(*lines)]
        widths[-1] += max(0, round(len(family) * HEADING) - sum(widths) - (len(widths) - 1) * GUTTER)
        starts = [left + sum(widths[:at]) + at * GUTTER for at in range(len(widths))]
        columns.append((left, starts[-1] + widths[-1]))
        left = columns[-1][1] + GUTTER
        for layer, cell in enumerate(cells[family]):
            highest = sum(tall[: layer + 1]) - 1 - (tall[layer] - len(cell)) // 2
            for down, line in enumerate(cell):
                for name, start, width in zip(line, starts, widths):
                    boxes[name] = Box(name, highest - down, start, width)
    return boxes, columns, [layer for layer in range(count) for _ in range(tall[layer])]


# ---- where the lines run
#
# A crate has one line for all that rest on it: up from the middle of its box, across to a trunk in the channel above
# it, up the trunk past the rows between, and across in the channel below each crate that rests on it. Channel n lies
# below row n.


class Net:
    """The line of a crate. Its trunk has one place from side to side."""

    def __init__(self, box, above):
        self.box, self.above = box, above
        self.first, self.last = box.row + 1, max(other.row for other in above)
        self.trunk = box.middle

    def passes(self, channel):
        return self.first <= channel <= self.last

    def end(self, box):
        return box.ends.get(self.box.name, box.middle)

    def enters(self, channel):
        """Where it comes into a channel from below."""
        return self.box.middle if channel == self.first else self.trunk

    def leaves(self, channel):
        """Where it leaves a channel upwards."""
        ends = [self.end(box) for box in self.above if box.row == channel]
        return ends + [self.trunk] if channel < self.last else ends

    def span(self, channel):
        """How far it runs across in a channel."""
        joined = [self.enters(channel), *self.leaves(channel)]
        return min(joined), max(joined)

    def length(self):
        """How far it runs across in all."""
        spans = [self.span(channel) for channel in range(self.first, self.last + 1)]
        return sum(right - left for left, right in spans)


def choose_trunks(nets, boxes, width):
    """Gives each line the trunk that makes it shortest, clear of boxes and other trunks. The tallest choose first."""
    placed = []
    for net in sorted((net for net in nets if net.first < net.last), key=lambda net: net.first - net.last):
        taken = [(box.left - CLEAR, box.right + CLEAR) for box in boxes if net.first <= box.row < net.last]
        for other in placed:
            if other.first <= net.last and net.first <= other.last:
                taken.append((other.trunk - LANE, other.trunk + LANE))
        found = []
        for place in range(MARGIN, width - CLEAR):
            if not any(left < place < right for left, right in taken):
                net.trunk = place
                found.append((net.length(), abs(place - net.box.middle), place))
        if not found:
            raise Wrong(f"the picture has no room for the line of {net.box.name}: make GUTTER wider")
        net.trunk = min(found)[2]
        placed.append(net)


def choose_ends(nets, boxes):
    """Spreads the lines that end at a box over its lower edge, in the order in which they come."""
    for box in boxes:
        coming = sorted((net for net in nets if box in net.above), key=lambda net: net.enters(box.row))
        low, high = box.left + PADDING, box.right - PADDING
        step = min(LANE + 2, (high - low) / max(1, len(coming) - 1))
        places = [min(max(net.enters(box.row), low), high) for net in coming]
        for at in range(1, len(places)):
            places[at] = max(places[at], places[at - 1] + step)
        for at in reversed(range(len(places))):
            places[at] = min(places[at], high - (len(places) - 1 - at) * step)
        box.ends = {net.box.name: place for net, place in zip(coming, places)}


def lanes_of(order, spans):
    """The lane of each line in a channel, counted upwards: above those before it in the order that it would touch."""
    lanes = {}
    for net in order:
        left, right = spans[net]
        beside = [other for other in lanes if spans[other][0] < right + LANE and left - LANE < spans[other][1]]
        lanes[net] = 1 + max((lanes[other] for other in beside), default=-1)
    return lanes


def tangle(lanes, spans, channel):
    """How hard a channel is to follow: a crossing costs 4, a line over another 100, a lane 1."""
    cost = max(lanes.values(), default=0)
    for one in lanes:
        left, right = spans[one]
        for other in lanes:
            if lanes[other] < lanes[one]:
                cost += 4 * sum(left < place < right for place in other.leaves(channel))
                cost += 100 * sum(abs(one.enters(channel) - place) < LANE for place in other.leaves(channel))
            elif other is not one:
                cost += 4 * (left < other.enters(channel) < right)
    return cost


def choose_lanes(nets, channel):
    """The lanes of a channel: a line is moved in their order as long as that makes it easier to follow."""
    spans = {net: net.span(channel) for net in nets if net.passes(channel)}
    order = sorted((net for net, (left, right) in spans.items() if left < right), key=lambda net: sum(spans[net]))
    cost, better = tangle(lanes_of(order, spans), spans, channel), True
    while better:
        better = False
        for at, to in permutations(range(len(order)), 2):
            tried = order[:at] + order[at + 1 :]
            tried.insert(to, order[at])
            new = tangle(lanes_of(tried, spans), spans, channel)
            if new < cost:
                order, cost, better = tried, new, True
    return lanes_of(order, spans)


# ---- the drawing


def colour(family, light):
    """A family's colour, so many percent light; a ground is paler than a line."""
    hue, strength = COLOURS[family % len(COLOURS)]
    parts = colorsys.hls_to_rgb(hue / 360, light / 100, strength / (200 if light > 90 else 100))
    return "#" + "".join(f"{round(255 * part):02x}" for part in parts)


def shown(number):
    return f"{number:.1f}".removesuffix(".0")


def rounded(points):
    """A path through the points, with its corners rounded."""
    points = [point for at, point in enumerate(points) if at == 0 or point != points[at - 1]]
    path = ["M" + " ".join(map(shown, points[0]))]
    for before, (x, y), after in zip(points, points[1:], points[2:]):
        near = []
        for ax, ay in (before, after):
            far = abs(ax - x) + abs(ay - y)
            part = min(CORNER, far / 2) / far
            near += [x + (ax - x) * part, y + (ay - y) * part]
        path.append("L{} {}Q{} {} {} {}".format(*map(shown, [*near[:2], x, y, *near[2:]])))
    return "".join(path) + "L" + " ".join(map(shown, points[-1]))


class House:
    """All that is drawn, with its place."""

    def __init__(self, text):
        self.families, self.family_of, rests_on = read(text)
        self.layer_of = layers(rests_on)
        self.needs = reduced(rests_on, self.layer_of)
        self.boxes, self.columns, self.rows = place(self.families, self.family_of, self.layer_of)
        self.width = self.columns[-1][1] + GUTTER
        above = {name: [self.boxes[other] for other in self.needs if name in self.needs[other]] for name in self.needs}
        self.nets = [Net(box, above[name]) for name, box in self.boxes.items() if above[name]]
        choose_trunks(self.nets, self.boxes.values(), self.width)
        choose_ends(self.nets, self.boxes.values())
        self.lanes = [choose_lanes(self.nets, channel) for channel in range(len(self.rows))]
        self.stack_rows()

    def stack_rows(self):
        """Gives each row its height in the picture, and each channel the middle of its lanes."""
        channels = []
        for row, lanes in enumerate(self.lanes):
            least = 20 if row == 0 or self.rows[row - 1] != self.rows[row] else 14
            channels.append(max(least, 14 + LANE * max(lanes.values(), default=0)))
        self.floor = HEAD + sum(channels) + BOX * len(channels) + 6
        self.tops, self.middles, y = [], [], self.floor
        for channel in channels:
            self.middles.append(y - channel / 2)
            y -= channel + BOX
            self.tops.append(y)
        for box in self.boxes.values():
            box.top = self.tops[box.row]
        self.height = self.floor + FOOT

    def lane(self, net, channel):
        lanes = self.lanes[channel]
        return self.middles[channel] + LANE * (max(lanes.values(), default=0) / 2 - lanes.get(net, 0))

    def path(self, net, box):
        """The line of a crate, as far as one box."""
        x, points = net.box.middle, [(net.box.middle, net.box.top)]
        for channel in sorted({net.first, box.row}):
            to = net.end(box) if channel == box.row else net.trunk
            if to != x:
                points += [(x, self.lane(net, channel)), (to, self.lane(net, channel))]
            x = to
        return rounded(points + [(x, box.top + BOX)])

    def words(self):
        """The picture for who hears it."""
        yield f"{len(self.boxes)} crates of {len(self.families)} families, each with what it rests on."
        for layer in range(max(self.rows) + 1):
            said = []
            for name in (name for name in self.needs if self.layer_of[name] == layer):
                said.append(f"{name} on {', '.join(self.needs[name])}" if self.needs[name] else name)
            yield f"Layer {layer}: {'; '.join(said)}."

    def ground(self):
        yield f'<rect width="{self.width}" height="{self.height}" rx="8" fill="#fcfcfa"/>'
        for at, ((left, right), family) in enumerate(zip(self.columns, self.families)):
            size = f'x="{left - 4}" y="6" width="{right - left + 8}" height="{self.floor}"'
            yield f'<rect {size} rx="5" fill="{colour(at, 95)}"/>'
            yield f'<text class="head" x="{shown((left + right) / 2)}" y="23" fill="{colour(at, 27)}">{family}</text>'
        for layer in range(max(self.rows) + 1):
            rows = [row for row, of in enumerate(self.rows) if of == layer]
            top, bottom = self.tops[rows[-1]] - 6, self.tops[rows[0]] + BOX + 6
            size = f'x="4" y="{shown(top)}" width="{self.width - 8}" height="{shown(bottom - top)}"'
            yield f'<rect {size} rx="4" fill="#203040" fill-opacity=".035"/>'
            yield f'<text class="head" x="13" y="{shown((top + bottom) / 2 + 4)}" fill="#55606a">{layer}</text>'

    def lines(self):
        """Lines of one family differ in how light they are, so that the eye can follow one."""
        drawn = [0] * len(self.families)
        for net in self.nets:
            family = self.families.index(self.family_of[net.box.name])
            paths = "".join(self.path(net, box) for box in net.above)
            yield f'<path d="{paths}" stroke="{colour(family, (38, 25, 50)[drawn[family] % 3])}"/>'
            drawn[family] += 1

    def crates(self):
        for name, box in self.boxes.items():
            family = self.families.index(self.family_of[name])
            size = f'x="{box.left}" y="{shown(box.top)}" width="{box.right - box.left}" height="{BOX}"'
            yield f'<rect {size} rx="3" fill="#fff" stroke="{colour(family, 38)}"/>'
            for at, line in enumerate(box.label):
                y = box.top + BOX / 2 + 4 + LINE * (at - (len(box.label) - 1) / 2)
                yield f'<text class="name" x="{shown((box.left + box.right) / 2)}" y="{shown(y)}">{line}</text>'

    def foot(self):
        said = [
            "A column is a family, a row a layer: a crate stands one layer above the highest crate that it rests on.",
            "A line rises from a crate to each crate that rests on it. What is implied by other lines is left out.",
        ]
        for at, line in enumerate(said):
            yield f'<text class="foot" x="{MARGIN}" y="{shown(self.floor + 22 + 15 * at)}">{line}</text>'

    def svg(self):
        size = f'width="{self.width}" height="{shown(self.height)}" viewBox="0 0 {self.width} {shown(self.height)}"'
        return "\n".join([
            f'<svg xmlns="http://www.w3.org/2000/svg" {size} role="img" aria-labelledby="title desc">',
            '<title id="title">The crates and what each rests on</title>',
            '<desc id="desc">', *self.words(), "</desc>",
            "<style>",
            "text { font: 12px Helvetica, Arial, sans-serif; }",
            ".head { font-weight: bold; text-anchor: middle; }",
            f".name {{ font: {FONT}px Menlo, Consolas, 'DejaVu Sans Mono', monospace; text-anchor: middle; }}",
            ".name, .foot { fill: #2a3038; }",
            "path { fill: none; stroke-width: 1.2; }",
            "</style>",
            *self.ground(), *self.lines(), *self.crates(), *self.foot(),
            "</svg>", "",
        ])


def main(words):
    if words not in ([], ["--check"]):
        return "usage: docs/house.py [--check]"
    try:
        svg = House((ROOT / "crates.txt").read_text(encoding="utf-8")).svg()
    except Wrong as wrong:
        return str(wrong)
    if not words:
        PICTURE.write_text(svg, encoding="utf-8")
    elif not PICTURE.is_file() or PICTURE.read_text(encoding="utf-8") != svg:
        return "docs/house.svg is not what crates.txt gives: run docs/house.py"
    return 0


if __name__ == "__main__":
    sys.exit(main(sys.argv[1:]))
