"""A picture as SVG: nodes with names, lines between them, a title and a legend. It has no script, and what it says by
color it says by form as well."""
from __future__ import annotations

from html import escape
from typing import Iterator, NamedTuple, Sequence

from mrttools.area import Bond, Node
from . import layout
from .layout import Layout, Point, Size

FONT = "Helvetica, Arial, sans-serif"
NAME, SMALL, LINE_SPACE = 11, 9, 15
WIDTH_OF_LETTER = 0.58
EDGE = 24
LEAST_WIDTH = 560
BETWEEN_LINES = 6.5
HEAD = 7.0
# The size of what stands at the ends of links.
TINY = 8
INK = {
    "blue": "#1f5fbf",
    "red": "#c8281e",
    "both": "#6a2c91",
    "primary": "#222222",
    "link": "#a8a8a8",
    "outside": "#a8a8a8",
    "failed": "#808080",
    "cut": "#b45f00",
}
THICK = {"both": 3.4, "primary": 1.1, "blue": 1.8, "red": 1.8, "cut": 4.0}
DASHES = {"primary": "6 3", "outside": "1 4", "failed": "4 4"}
# How a node is filled: its fill, its border, the dashes of this, and its letters.
FILLS = {
    "plain": ("#ffffff", "#222222", "", "#111111"),
    "network": ("#eeeeee", "#222222", "", "#111111"),
    "outside": ("#ffffff", "#a8a8a8", "1 3", "#777777"),
    "failed": ("#dddddd", "#808080", "4 3", "#666666"),
    "blue": ("#cfe0f7", "#1f5fbf", "", "#111111"),
    "red": ("#f7d3d0", "#c8281e", "", "#111111"),
    "lost": ("#333333", "#111111", "", "#ffffff"),
    "cut": ("#ffb84d", "#7a4100", "", "#111111"),
}
# The head of an arrow by its sort: what it looks like in grey. It points to the right and ends at 10, 5.
HEADS = {
    "blue": '<path d="M0 1 L10 5 L0 9 z" fill="{ink}"/>',
    "red": '<path d="M1 1 L9.5 5 L1 9 z" fill="#ffffff" stroke="{ink}" stroke-width="1.4"/>',
    "both": '<path d="M0 0 L10 5 L0 10 z" fill="{ink}"/>',
    "primary": '<path d="M1 1 L9.5 5 L1 9" fill="none" stroke="{ink}" stroke-width="1.4"/>',
}


class Mark(NamedTuple):
    """A node: its name, a word below it, how it is filled, and what its tooltip says. A network has corners, and a
    destination a second border."""

    node: Node
    name: str
    word: str
    fill: str
    square: bool
    double: bool
    tip: str


class Stroke(NamedTuple):
    """A line from one node to another, with an arrow or without one."""

    bond: Bond
    tail: Node
    sort: str
    tip: str


class Drawing(NamedTuple):
    """What a picture has: the words above it, nodes, lines, what stands at the ends of links, what the nodes and lines
    mean, and the sentences below it."""

    title: str
    marks: list[Mark]
    strokes: list[Stroke]
    ends: dict[Bond, tuple[str, str]]
    legend: list[tuple[str, str]]
    notes: list[str]


def width(text: str, size: float) -> float:
    return len(text) * size * WIDTH_OF_LETTER


def size_of(mark: Mark) -> Size:
    widest = max(width(mark.name, NAME), width(mark.word, SMALL))
    return Size(widest / 2 + (5 if mark.square else 7), 15 if mark.word else 9)


def number(value: float) -> str:
    return f"{value:.1f}".removesuffix(".0")


def label(x: float, y: float, text: str, size: float, more: str = "") -> str:
    return f'<text x="{number(x)}" y="{number(y)}" font-size="{number(size)}"{more}>{escape(text)}</text>'


# lines


def between(one: Point, other: Point, part: float) -> Point:
    return one[0] + part * (other[0] - one[0]), one[1] + part * (other[1] - one[1])


def point_at(points: Sequence[Point], part: float) -> Point:
    """The point of a line with one control point."""
    return between(between(points[0], points[1], part), between(points[1], points[2], part), part)


def within(point: Point, at: Point, size: Size) -> bool:
    return abs(point[0] - at[0]) <= size.x + 1 and abs(point[1] - at[1]) <= size.y + 1


def border(points: Sequence[Point], at: Point, size: Size, inside: float, outside: float) -> float:
    """The part of a line at which it leaves a node's border."""
    for _ in range(20):
        middle = (inside + outside) / 2
        if within(point_at(points, middle), at, size):
            inside = middle
        else:
            outside = middle
    return outside


def piece(points: Sequence[Point], start: float, end: float) -> list[Point]:
    """The piece of a line between two of its parts."""
    first, last = point_at(points, start), point_at(points, end)
    control = between(between(points[0], points[1], start), between(points[1], points[2], start), end)
    return [first, control, last]


class Paper:
    """A drawing with its layout."""

    def __init__(self, drawing: Drawing) -> None:
        self.drawing = drawing
        self.place = {mark.node: number for number, mark in enumerate(drawing.marks)}
        self.sizes = [size_of(mark) for mark in drawing.marks]
        lines = [(self.place[stroke.bond.a], self.place[stroke.bond.b]) for stroke in drawing.strokes]
        widest = max((width(text, TINY) for texts in drawing.ends.values() for text in texts), default=0)
        space = layout.SPACE + 2 * widest
        self.layout: Layout = layout.layout(self.sizes, lines, space)
        self.shift_to_corner()

    def shift_to_corner(self) -> None:
        """Moves the layout so that its least corner is the origin, and measures it."""
        places, sizes = self.layout.places, self.sizes
        left = min((x - size.x for (x, _), size in zip(places, sizes)), default=0)
        top = min((y - size.y for (_, y), size in zip(places, sizes)), default=0)
        moved = [(x - left, y - top) for x, y in places]
        self.layout = self.layout._replace(places=moved)
        self.wide = max((x + size.x for (x, _), size in zip(moved, sizes)), default=0)
        self.high = max((y + size.y for (_, y), size in zip(moved, sizes)), default=0)

    def points(self, stroke: Stroke, shift: float) -> list[Point]:
        """The line of a stroke from its tail: beside the straight or bent line of its two nodes by a shift."""
        a, b = sorted((self.place[stroke.bond.a], self.place[stroke.bond.b]))
        one, other = self.layout.places[a], self.layout.places[b]
        control = layout.control_point(one, other, self.layout.bends.get((a, b), 0.0))
        length = max(1.0, ((other[0] - one[0]) ** 2 + (other[1] - one[1]) ** 2) ** 0.5)
        aside = shift * (one[1] - other[1]) / length, shift * (other[0] - one[0]) / length
        found = [(x + aside[0], y + aside[1]) for x, y in (one, control, other)]
        if self.place[stroke.tail] != a:
            found.reverse()
        start = border(found, self.at(stroke.tail), self.size(stroke.tail), 0.0, 0.5)
        head = stroke.bond.far(stroke.tail)
        end = border(found, self.at(head), self.size(head), 1.0, 0.5)
        # Room for the head, whose tip stands before the line's end.
        return piece(found, start, max(start, end - HEAD / length) if stroke.sort in HEADS else end)

    def at(self, node: Node) -> Point:
        return self.layout.places[self.place[node]]

    def size(self, node: Node) -> Size:
        """A node's size with its borders."""
        size = self.sizes[self.place[node]]
        return Size(size.x + 3, size.y + 3) if self.drawing.marks[self.place[node]].double else size

    def shifts(self) -> Iterator[tuple[Stroke, float]]:
        """The strokes, those of the same two nodes side by side."""
        groups: dict[frozenset[Node], list[Stroke]] = {}
        for stroke in self.drawing.strokes:
            groups.setdefault(frozenset((stroke.bond.a, stroke.bond.b)), []).append(stroke)
        for group in groups.values():
            for place, stroke in enumerate(group):
                yield stroke, (place - (len(group) - 1) / 2) * (2 if self.drawing.ends else 1) * BETWEEN_LINES

    def stroke_lines(self) -> Iterator[str]:
        for stroke, shift in self.shifts():
            points = self.points(stroke, shift)
            yield f"<g><title>{escape(stroke.tip)}</title>{line_of(points, stroke.sort)}{hover(points)}</g>"

    def end_lines(self) -> Iterator[str]:
        """What stands at the ends of links, once for each link, and where it can not over another one."""
        labelled: set[Bond] = set()
        taken: list[tuple[Point, Size]] = []
        for stroke, shift in self.shifts():
            if stroke.bond in self.drawing.ends and stroke.bond not in labelled:
                labelled.add(stroke.bond)
                points = self.points(stroke, shift)
                texts = self.drawing.ends[stroke.bond]
                for text, way in zip(texts if stroke.tail == stroke.bond.a else texts[::-1], (points, points[::-1])):
                    if text:
                        x, y = label_place(text, way, taken)
                        yield label(x, y + 3, text, TINY, ' text-anchor="middle" fill="#333" class="halo"')

    def mark_lines(self) -> Iterator[str]:
        for mark, size, at in zip(self.drawing.marks, self.sizes, self.layout.places):
            yield f"<g><title>{escape(mark.tip)}</title>{mark_shape(mark, size, at)}</g>"


def path_of(points: Sequence[Point]) -> str:
    x, y = (" ".join(map(number, point)) for point in (points[0], points[2]))
    middle = between(points[0], points[2], 0.5)
    if abs(middle[0] - points[1][0]) + abs(middle[1] - points[1][1]) < 0.2:
        return f"M{x} L{y}"
    return f"M{x} Q{' '.join(map(number, points[1]))} {y}"


def line_of(points: Sequence[Point], sort: str) -> str:
    """A line with its arrow, if it has one."""
    dashes = f' stroke-dasharray="{DASHES[sort]}"' if sort in DASHES else ""
    head = f' marker-end="url(#head-{sort})"' if sort in HEADS else ""
    return (
        f'<path d="{path_of(points)}" fill="none" stroke="{INK[sort]}" '
        f'stroke-width="{number(THICK.get(sort, 1.2))}"{dashes}{head}/>'
    )


def hover(points: Sequence[Point]) -> str:
    """A broad line that is not seen, so that a tooltip is easily met."""
    return f'<path d="{path_of(points)}" fill="none" stroke="#000" stroke-opacity="0" stroke-width="9"/>'


def label_place(text: str, points: Sequence[Point], taken: list[tuple[Point, Size]]) -> Point:
    """Where a word stands near the beginning of a line: past the border, and past other words if it can."""
    wide, high = abs(points[2][0] - points[0][0]), abs(points[2][1] - points[0][1])
    length = max(1.0, (wide * wide + high * high) ** 0.5)
    size = Size(width(text, TINY) / 2, 5)
    part = min(0.45, ((size.x * wide + 7 * high) / length + 3) / length)
    while part < 0.45 and any(layout.overlap(point_at(points, part), size, *other, 0) for other in taken):
        part = min(0.45, part + 6 / length)
    taken.append((point_at(points, part), size))
    return taken[-1][0]


def mark_shape(mark: Mark, size: Size, at: Point) -> str:
    """A node with its name."""
    fill, ink, dashes, letters = FILLS[mark.fill]
    round_by = 2 if mark.square else min(size.y, 9)

    def box(more: float, inside: str) -> str:
        return (
            f'<rect x="{number(at[0] - size.x - more)}" y="{number(at[1] - size.y - more)}" '
            f'width="{number(2 * (size.x + more))}" height="{number(2 * (size.y + more))}" '
            f'rx="{number(round_by + more)}" fill="{inside}" stroke="{ink}" stroke-width="1.2"'
            + (f' stroke-dasharray="{dashes}"' if dashes else "")
            + "/>"
        )

    middle = f' text-anchor="middle" fill="{letters}"'
    lines = [box(3.5, "#ffffff")] if mark.double else []
    lines += [box(0, fill), label(at[0], at[1] + (-1 if mark.word else 4), mark.name, NAME, middle)]
    if mark.word:
        lines.append(label(at[0], at[1] + 10, mark.word, SMALL, middle))
    return "".join(lines)


# title, legend and notes


def sample(kind: str, x: float, y: float) -> str:
    """What a word of the legend speaks of: a line, or a node."""
    if kind in INK and not kind.startswith("fill "):
        return line_of([(x, y), (x + 12, y), (x + 24, y)], kind)
    fill = kind.removeprefix("fill ")
    mark = Mark(Node(0, 0), "", "", "plain" if fill == "double" else fill, fill == "network", fill == "double", "")
    return mark_shape(mark, Size(11, 6), (x + 15, y))


def legend_lines(legend: Sequence[tuple[str, str]], wide: float, top: float) -> tuple[list[str], float]:
    """The legend, in as many lines as it needs, and where it ends."""
    lines, x, y = [], 0.0, top
    for kind, text in legend:
        room = 38 + width(text, NAME) + 18
        if x and x + room > wide:
            x, y = 0.0, y + LINE_SPACE + 5
        lines += [sample(kind, x, y - 4), label(x + 38, y, text, NAME)]
        x += room
    return lines, y + LINE_SPACE + 4


def wrapped(text: str, wide: float, size: float) -> list[str]:
    """A sentence in lines of a width."""
    lines = [""]
    for word in text.split(" "):
        if lines[-1] and width(f"{lines[-1]} {word}", size) > wide:
            lines.append("")
        lines[-1] += (" " if lines[-1] else "") + word
    return lines


def text_lines(texts: Sequence[str], wide: float, top: float, size: float, more: str = "") -> tuple[list[str], float]:
    lines, y = [], top
    for text in texts:
        for part in wrapped(text, wide, size):
            lines.append(label(0, y, part, size, more))
            y += size + 5
    return lines, y


def svg(drawing: Drawing) -> str:
    """The picture."""
    return svg_and_width(drawing)[0]


def svg_and_width(drawing: Drawing) -> tuple[str, float]:
    """The picture, and how wide it is where nothing is made smaller."""
    paper = Paper(drawing)
    wide = max(paper.wide, LEAST_WIDTH)
    title, top = text_lines([drawing.title], wide, 8, 15, ' font-weight="bold"')
    aside = (wide - paper.wide) / 2
    below = top + paper.high + 34
    legend, below = legend_lines(drawing.legend, wide, below)
    notes, below = text_lines(drawing.notes, wide, below + 2, NAME)
    heads = "".join(
        f'<marker id="head-{sort}" viewBox="0 0 10 10" refX="2" refY="5" markerWidth="9" markerHeight="9" '
        f'markerUnits="userSpaceOnUse" orient="auto">{form.format(ink=INK[sort])}</marker>'
        for sort, form in HEADS.items()
    )
    full = wide + 2 * EDGE, below + EDGE
    text = "\n".join(
        [
            f'<svg xmlns="http://www.w3.org/2000/svg" width="{number(full[0])}" height="{number(full[1])}" '
            f'viewBox="{-EDGE} {-EDGE / 2:.0f} {number(full[0])} {number(full[1])}" font-family="{FONT}" role="img">',
            f"<title>{escape(drawing.title)}</title>",
            f"<defs>{heads}</defs>",
            "<style>.halo{paint-order:stroke;stroke:#fff;stroke-width:3px}</style>",
            f'<rect x="{-EDGE}" y="{-EDGE / 2:.0f}" width="100%" height="100%" fill="#ffffff"/>',
            *title,
            f'<g transform="translate({number(aside)} {number(top + 6)})">',
            *paper.stroke_lines(),
            *paper.mark_lines(),
            *paper.end_lines(),
            "</g>",
            *legend,
            *notes,
            "</svg>",
            "",
        ]
    )
    return text, full[0]
