"""Drawings of a policy: functions, their branches, classes, and where each may go. What a load added is green."""
from __future__ import annotations

from dataclasses import dataclass
from html import escape

ROW, LETTER, GAP = 20, 8, 150  # pixels: of a line, of a letter, and between two columns
PLAIN, ADDED = "#333333", "#118833"


def colour(item) -> str:
    """The colour of a branch or a target, and of the line between it and its class."""
    return ADDED if item.added else PLAIN


def dot_of(groups) -> str:
    """The policy for Graphviz: branches on the left, each in the box of its function, and targets on the right."""
    lines = ["digraph policy {", "  rankdir=LR", "  node [shape=box, fontname=monospace]"]
    homes = {}
    for number, group in enumerate(groups, 1):
        lines.append(f'  c{number} [label="class {number}", shape=ellipse]')
        for it in group.branches:
            homes.setdefault(it.name.split()[0].split("+")[0], []).append(it)
            lines.append(f'  b{it.key} -> c{number} [color="{colour(it)}"]')
        for it in group.targets:
            lines.append(f'  t{it.key} [label="{it.name}", color="{colour(it)}"]')
            lines.append(f'  c{number} -> t{it.key} [color="{colour(it)}"]')
    for number, (home, items) in enumerate(sorted(homes.items())):
        nodes = "".join(f' b{it.key} [label="{it.name}", color="{colour(it)}"]' for it in items)
        lines.append(f'  subgraph cluster{number} {{ label="{home}"{nodes} }}')
    return "\n".join([*lines, "}"]) + "\n"


@dataclass(frozen=True)
class Columns:
    """Where branches end, classes stand and targets begin, as wide as their names are."""
    left: int
    middle: int
    right: int
    width: int

    @staticmethod
    def of(groups) -> Columns:
        """The columns for these groups."""
        branches = max((len(it.name) for group in groups for it in group.branches), default=0)
        targets = max((len(it.name) for group in groups for it in group.targets), default=0)
        left = LETTER * (branches + 1)
        return Columns(left, left + GAP, left + 2 * GAP, left + 2 * GAP + LETTER * (targets + 1))


def text(x: int, y: int, item, anchor: str) -> str:
    """The name of a branch or a target."""
    return f'<text x="{x}" y="{y + 4}" text-anchor="{anchor}" fill="{colour(item)}">{escape(item.name)}</text>'


def line(x: int, y: int, to_x: int, to_y: int, item) -> str:
    """The line between a branch or a target and its class."""
    return f'<line x1="{x}" y1="{y}" x2="{to_x}" y2="{to_y}" stroke="{colour(item)}"/>'


def group_of(number: int, group, top: int, columns: Columns) -> tuple[list[str], int]:
    """The lines of a class below `top`, and where the next one begins."""
    rows = max(len(group.branches), len(group.targets), 1)
    x, y = columns.middle, top + rows * ROW // 2
    found = [f'<text x="{x}" y="{y + 4}" text-anchor="middle" fill="{PLAIN}">class {number}</text>']
    for row, it in enumerate(group.branches):
        at = top + row * ROW + ROW // 2
        found += [text(columns.left, at, it, "end"), line(columns.left + 5, at, x - 35, y, it)]
    for row, it in enumerate(group.targets):
        at = top + row * ROW + ROW // 2
        found += [text(columns.right, at, it, "start"), line(x + 35, y, columns.right - 5, at, it)]
    return found, top + rows * ROW + ROW


def svg_of(groups) -> str:
    """The policy as a drawing: branches on the left, classes in the middle, targets on the right."""
    lines, top, columns = [], ROW, Columns.of(groups)
    for number, group in enumerate(groups, 1):
        found, top = group_of(number, group, top, columns)
        lines += found
    size = f'width="{columns.width}" height="{top}" font-family="monospace" font-size="12"'
    return "\n".join([f'<svg xmlns="http://www.w3.org/2000/svg" {size}>', *lines, "</svg>"]) + "\n"
