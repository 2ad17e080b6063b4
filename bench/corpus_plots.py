"""Plots as SVG, made without a library: steps of shares over a line of numbers."""
from typing import List, Sequence, Tuple

WIDTH, HEIGHT = 720, 380
LEFT, RIGHT, TOP, BOTTOM = 60, 190, 40, 50
COLOURS = ("#0b6e4f", "#c1440e", "#3d5a98", "#8d6a9f", "#7a7a7a", "#b8860b", "#2a9d8f", "#b03060")
DASHES = ("", "6 3", "2 3", "8 3 2 3", "1 4", "12 4", "4 2", "1 7")

Curve = Tuple[str, Sequence[Tuple[float, float]]]


def text(x: float, y: float, said: str, anchor: str = "start", size: int = 12, colour: str = "#222") -> str:
    said = said.replace("&", "&amp;").replace("<", "&lt;")
    return f'<text x="{x:.1f}" y="{y:.1f}" text-anchor="{anchor}" font-size="{size}" fill="{colour}">{said}</text>'


def line(x: float, y: float, to_x: float, to_y: float, colour: str = "#ccc") -> str:
    return f'<line x1="{x:.1f}" y1="{y:.1f}" x2="{to_x:.1f}" y2="{to_y:.1f}" stroke="{colour}"/>'


def share_curve(values: Sequence[float], most: float, steps: int) -> List[Tuple[float, float]]:
    """The share of values that are at most x, for x up to `most`."""
    points = []
    for step in range(steps + 1):
        x = most * step / steps
        points.append((x, sum(value <= x + 1e-9 for value in values) / len(values) if values else 0.0))
    return points


def plot(title: str, across: str, curves: Sequence[Curve], ticks: Sequence[Tuple[float, str]], least: float, most: float) -> str:
    """Curves of shares from 0 to 1. Each has a colour, a dash and its name at its end, so that none needs colour alone."""
    wide, high = WIDTH - LEFT - RIGHT, HEIGHT - TOP - BOTTOM

    def at(x: float, y: float) -> Tuple[float, float]:
        return LEFT + wide * (x - least) / (most - least), TOP + high * (1 - y)

    parts = [f'<svg xmlns="http://www.w3.org/2000/svg" viewBox="0 0 {WIDTH} {HEIGHT}" width="{WIDTH}" height="{HEIGHT}" font-family="sans-serif" role="img">',
             f"<title>{title}</title>", f'<rect width="{WIDTH}" height="{HEIGHT}" fill="#fff"/>', text(LEFT, 22, title, size=14)]
    for share in range(0, 101, 20):
        x, y = at(least, share / 100)
        parts += [line(x, y, LEFT + wide, y), text(x - 6, y + 4, f"{share} %", "end")]
    for place, name in ticks:
        x, y = at(place, 0)
        parts += [line(x, y, x, y + 4, "#888"), text(x, y + 18, name, "middle")]
    parts.append(text(LEFT + wide / 2, HEIGHT - 10, across, "middle"))
    ends = sorted((at(*points[-1])[1], number) for number, (_, points) in enumerate(curves))
    heights = {}
    last = -100.0
    for y, number in ends:
        last = max(y, last + 15)
        heights[number] = last
    for number, (name, points) in enumerate(curves):
        path = " ".join(f"{x:.1f},{y:.1f}" for x, y in (at(*point) for point in points))
        colour = COLOURS[number % len(COLOURS)]
        parts.append(f'<polyline points="{path}" fill="none" stroke="{colour}" stroke-width="2" stroke-dasharray="{DASHES[number % len(DASHES)]}"/>')
        x, y = at(*points[-1])
        parts += [line(x + 2, y, x + 12, heights[number], colour), text(x + 15, heights[number] + 4, name, colour=colour)]
    return "\n".join(parts + ["</svg>", ""])
