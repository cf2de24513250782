"""Where the nodes of a picture stand: of some layouts of graphviz the one with the fewest lines through the names of
other nodes, and then the fewest crossings; nodes are moved and lines bent until it has fewer still."""
from __future__ import annotations

import subprocess
from itertools import combinations
from random import Random
from typing import NamedTuple, Sequence

from mrttools.exits import READ_FAULT, ToolFault

LACKS = "a picture needs Debian's graphviz"
Point = tuple[float, float]
Line = tuple[int, int]

# Above this number of nodes there is one layout, and no node is moved: it would take minutes.
MANY_NODES = 260
LAYOUTS = 6
ROUNDS = 5
WIDENINGS, WIDENING = 4, 1.12
TRIES, ALL_TRIES = 9, 1000
MARGIN, INFINITE = 3.0, float("inf")
SPACE, SPACE_ABOVE = 22.0, 36.0
BENDS = 0.0, 0.12, -0.12, 0.22, -0.22, 0.34, -0.34
POINTS_IN_INCH = 72.0


class Size(NamedTuple):
    """Half the width and half the height of a node's name."""

    x: float
    y: float


class Layout(NamedTuple):
    """The place of each node, and for each line that is bent how far its middle stands to its left, as a part of its
    length. A line goes from the lesser of its two nodes to the greater."""

    places: list[Point]
    bends: dict[Line, float]


# what is wrong with a layout


def turn(a: Point, b: Point, c: Point) -> float:
    """Above 0 where the way over three points turns to the left."""
    return (b[0] - a[0]) * (c[1] - a[1]) - (b[1] - a[1]) * (c[0] - a[0])


def cross(a: Point, b: Point, c: Point, d: Point) -> bool:
    """Whether the line from a to b crosses that from c to d."""
    return (turn(a, b, c) > 0) != (turn(a, b, d) > 0) and (turn(c, d, a) > 0) != (turn(c, d, b) > 0)


def meets(a: Point, b: Point, at: Point, size: Size) -> bool:
    """Whether the line from a to b goes through a name at a place, or comes very near to it."""
    half_x, half_y = size.x + MARGIN, size.y + MARGIN
    left, right, low, high = at[0] - half_x, at[0] + half_x, at[1] - half_y, at[1] + half_y
    if (a[0] < left and b[0] < left) or (a[0] > right and b[0] > right):
        return False
    if (a[1] < low and b[1] < low) or (a[1] > high and b[1] > high):
        return False
    corners = (left, low), (left, high), (right, low), (right, high)
    sides = [turn(a, b, corner) > 0 for corner in corners]
    return any(sides) and not all(sides)


def overlap(a: Point, size_a: Size, b: Point, size_b: Size, space: float) -> bool:
    """Whether two names come nearer to each other than the space that a line needs between them: words at its ends need
    more beside each other than above each other."""
    above = min(space, SPACE_ABOVE)
    return abs(a[0] - b[0]) < size_a.x + size_b.x + space and abs(a[1] - b[1]) < size_a.y + size_b.y + above


def through(places: Sequence[Point], sizes: Sequence[Size], lines: Sequence[Line]) -> list[tuple[int, int]]:
    """The straight lines that go through the names of others: lines by number, and nodes."""
    return [
        (number, node)
        for number, (a, b) in enumerate(lines)
        for node, at in enumerate(places)
        if node not in (a, b) and meets(places[a], places[b], at, sizes[node])
    ]


def crossings(places: Sequence[Point], lines: Sequence[Line]) -> int:
    """How many pairs of straight lines cross that do not meet at a node."""
    return sum(
        cross(places[one[0]], places[one[1]], places[other[0]], places[other[1]])
        for one, other in combinations(lines, 2)
        if not set(one) & set(other)
    )


# graphviz


def graph_text(sizes: Sequence[Size], lines: Sequence[Line], space: float) -> str:
    nodes = (
        f"n{number} [width={2 * size.x / POINTS_IN_INCH:.3f}, height={2 * size.y / POINTS_IN_INCH:.3f}];"
        for number, size in enumerate(sizes)
    )
    return (
        f'graph {{ overlap=prism; sep="+{space / 2:.0f}"; node [shape=box, fixedsize=true, label=""]; '
        f"edge [len={space / 20:.2f}];" + "".join(nodes) + "".join(f"n{a} -- n{b};" for a, b in lines) + "}"
    )


def places_of(program: str, mode: str, text: str, start: int, count: int) -> list[Point]:
    """Where graphviz puts the nodes from one of its random starts, each of which is the same every time."""
    command = [program, f"-Gstart={start}", *([f"-Gmode={mode}"] if mode else []), "-Tplain"]
    try:
        plain = subprocess.run(
            command, input=text.encode(), stdout=subprocess.PIPE, stderr=subprocess.DEVNULL, check=True
        ).stdout.decode()
    except FileNotFoundError:
        raise ToolFault(LACKS, READ_FAULT) from None
    found = [(0.0, 0.0)] * count
    for line in plain.splitlines():
        words = line.split(" ")
        if words[0] == "node":
            found[int(words[1][1:])] = float(words[2]) * POINTS_IN_INCH, -float(words[3]) * POINTS_IN_INCH
    return found


# moving nodes


class Mover:
    """A layout whose nodes are moved one by one where that leaves less that is wrong."""

    def __init__(self, places: list[Point], sizes: Sequence[Size], lines: Sequence[Line], space: float) -> None:
        self.places, self.sizes, self.lines, self.space = places, sizes, lines, space
        self.own: list[list[int]] = [[] for _ in sizes]
        for number, (a, b) in enumerate(lines):
            self.own[a].append(number)
            self.own[b].append(number)
        lengths = [self.length(line) for line in lines]
        self.usual = sum(lengths) / max(1, len(lengths))
        self.tries = max(TRIES, min(60, ALL_TRIES // max(1, len(sizes))))
        self.random = Random(1)

    def length(self, line: Line) -> float:
        (x, y), (z, w) = self.places[line[0]], self.places[line[1]]
        return ((x - z) ** 2 + (y - w) ** 2) ** 0.5

    def cost(self, node: int, at: Point, limit: float) -> float:
        """What is wrong about a node at a place: names over names, lines through names, crossings, long lines. Above a
        limit it is not counted to its end."""
        places, sizes = self.places, self.sizes
        old, places[node] = places[node], at
        cost, size = 0.0, sizes[node]
        for other, place in enumerate(places):
            if other != node and overlap(at, size, place, sizes[other], self.space):
                cost += 3000
        if cost < limit:
            for line in self.lines:
                if node not in line and meets(places[line[0]], places[line[1]], at, size):
                    cost += 1000
        for number in self.own[node]:
            if cost < limit:
                cost += self.line_cost(self.lines[number])
        places[node] = old
        return cost

    def line_cost(self, line: Line) -> float:
        places, sizes = self.places, self.sizes
        start, end = places[line[0]], places[line[1]]
        longer = max(0.1, self.length(line) / self.usual)
        cost = 6 * (longer**3 + 1 / longer)
        for node, at in enumerate(places):
            if node not in line and meets(start, end, at, sizes[node]):
                cost += 1000
        # As `cross` has it, but with the side of each node looked at once.
        side = [(end[0] - start[0]) * (y - start[1]) > (end[1] - start[1]) * (x - start[0]) for x, y in places]
        for c, d in self.lines:
            if side[c] != side[d] and c not in line and d not in line:
                one, other = places[c], places[d]
                if (turn(one, other, start) > 0) != (turn(one, other, end) > 0):
                    cost += 30
        return cost

    def better_place(self, node: int, spread: float, tries: int) -> None:
        """Moves a node where one of some places near it is better."""
        x, y = self.places[node]
        best, least = (x, y), self.cost(node, (x, y), INFINITE)
        for _ in range(tries):
            at = x + self.random.gauss(0, spread), y + self.random.gauss(0, spread * 0.7)
            cost = self.cost(node, at, least)
            if cost < least - 1e-6:
                best, least = at, cost
        self.places[node] = best

    def troubled(self) -> list[int]:
        """The nodes at lines through names, and those named."""
        found = set()
        for number, node in through(self.places, self.sizes, self.lines):
            found |= {node, *self.lines[number]}
        return sorted(found)

    def settle(self) -> bool:
        """Some rounds over the nodes where something is wrong; whether nothing is in the end."""
        for number in range(ROUNDS):
            nodes = self.troubled()
            if not nodes:
                return True
            for node in nodes:
                self.better_place(node, (1.6, 0.8, 0.4)[number % 3] * self.usual, 3 * self.tries)
        return not self.troubled()

    def widen(self) -> None:
        """Leaves more room for the same names."""
        self.places = [(x * WIDENING, y * WIDENING) for x, y in self.places]
        self.usual *= WIDENING

    def improve(self) -> None:
        """Some rounds over all nodes, each with smaller steps, and then over those where something is wrong still, with
        more room each time."""
        for spread in (1.2, 0.7, 0.4):
            for node in range(len(self.places)):
                self.better_place(node, spread * self.usual, self.tries)
        for _ in range(WIDENINGS):
            if self.settle():
                return
            self.widen()
        self.settle()


# bending lines


def curve(a: Point, b: Point, bend: float) -> list[Point]:
    """The corners of a bent line, as straight pieces: its middle stands to its left by a part of its length."""
    if not bend:
        return [a, b]
    control = control_point(a, b, bend)
    steps = [step / 8 for step in range(9)]

    def at(t: float, axis: int) -> float:
        return (1 - t) ** 2 * a[axis] + 2 * t * (1 - t) * control[axis] + t * t * b[axis]

    return [(at(t, 0), at(t, 1)) for t in steps]


def control_point(a: Point, b: Point, bend: float) -> Point:
    """The control point of a bent line, which is twice as far from it as its middle."""
    return (a[0] + b[0]) / 2 + 2 * bend * (b[1] - a[1]), (a[1] + b[1]) / 2 - 2 * bend * (b[0] - a[0])


def bends_of(places: Sequence[Point], sizes: Sequence[Size], lines: Sequence[Line]) -> dict[Line, float]:
    """How far each line is bent that would go through a name: so that it goes through the fewest."""

    def names(line: Line, bend: float) -> int:
        corners = curve(places[line[0]], places[line[1]], bend)
        return sum(
            any(meets(one, other, at, sizes[node]) for one, other in zip(corners, corners[1:]))
            for node, at in enumerate(places)
            if node not in line
        )

    wrong = {lines[number] for number, _ in through(places, sizes, lines)}
    return {line: min(BENDS, key=lambda bend: (names(line, bend), abs(bend))) for line in sorted(wrong)}


# the layout


def layout(sizes: Sequence[Size], lines: Sequence[Line], space: float = SPACE) -> Layout:
    """The layout of nodes of these sizes with these lines between them, with a space between names."""
    lines = sorted({(min(line), max(line)) for line in lines})
    if len(sizes) > MANY_NODES:
        places = places_of("sfdp", "", graph_text(sizes, lines, space), 1, len(sizes))
        return Layout(places, {})
    found = []
    for start in range(1, LAYOUTS + 1):
        mode = "KK" if start % 2 else "major"
        text = graph_text(sizes, lines, space * (1, 1.5)[start // 2 % 2])
        found.append(places_of("neato", mode, text, start, len(sizes)))
    places = min(found, key=lambda places: (len(through(places, sizes, lines)), crossings(places, lines)))
    mover = Mover(places, sizes, lines, space)
    mover.improve()
    return Layout(mover.places, bends_of(mover.places, sizes, lines))
