"""A picture of what each failure cost, with repairs and without: horizontal bars as SVG."""
from __future__ import annotations

from html import escape
from typing import NamedTuple

NAMES, BARS, STEP, TOP = 250, 420, 24, 46
INK = {"with": "#1f5fbf", "without": "#c9c9c9", "parted": "#c8281e"}


class Bar(NamedTuple):
    """A failure, the pings lost with repairs and without, and how many pairs it parts."""

    name: str
    lost: int
    without: int
    parted: int


def text(x: float, y: float, words: str, more: str = "") -> str:
    return f'<text x="{x:.0f}" y="{y:.0f}" {more}>{escape(words)}</text>'


def box(x: float, y: float, width: float, height: float, color: str) -> str:
    return f'<rect x="{x:.0f}" y="{y:.0f}" width="{width:.1f}" height="{height:.0f}" fill="{color}"/>'


def row(bar: Bar, top: float, scale: float) -> list[str]:
    """The two bars of a failure, with their numbers."""
    ink = INK["parted"] if bar.parted else INK["with"]
    return [
        text(NAMES - 8, top + 14, bar.name, 'text-anchor="end"'),
        box(NAMES, top + 2, bar.without * scale, 16, INK["without"]),
        box(NAMES, top + 5, bar.lost * scale, 10, ink),
        text(NAMES + max(bar.without, bar.lost) * scale + 6, top + 14, f"{bar.lost:,} of {bar.without:,}"),
    ]


def svg(title: str, bars: list[Bar]) -> str:
    """The picture."""
    greatest = max((max(bar.lost, bar.without) for bar in bars), default=0) or 1
    width, height = NAMES + BARS + 130, TOP + STEP * len(bars) + 12
    keys = "blue: lost with repairs; red: with repairs, where pairs are parted; grey: lost without"
    parts = [text(10, 18, title, 'font-weight="bold"'), text(10, 36, keys)]
    for number, bar in enumerate(bars):
        parts += row(bar, TOP + STEP * number, BARS / greatest)
    head = f'<svg xmlns="http://www.w3.org/2000/svg" width="{width}" height="{height}" font-family="Helvetica"'
    body = "\n".join([f'<rect width="{width}" height="{height}" fill="white"/>', *parts])
    return f'{head} font-size="12">\n{body}\n</svg>\n'
