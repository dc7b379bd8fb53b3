"""Draws rates over time as an SVG: panels one above the other, each with a title, a line for each series and its name."""

import html
import math

WIDTH, LEFT, RIGHT = 900, 64, 190
PANEL, TITLE, AXIS = 130, 26, 26
COLOURS = ["#1f6fb2", "#d1622b", "#3c8d40", "#8d5fb0", "#b3892a", "#4a4a4a"]
FONT = 'font-family="Helvetica,sans-serif" font-size="12"'


def top_of_scale(most):
    """The least of 1, 2, 5, 10, 20, .. that is no less."""
    unit = 10 ** math.floor(math.log10(most)) if most > 0 else 1
    return next(unit * factor for factor in (1, 2, 5, 10) if unit * factor >= most)


def text(x, y, words, anchor="start", more=""):
    return f'<text x="{x:.0f}" y="{y:.0f}" text-anchor="{anchor}" {FONT} {more}>{html.escape(words)}</text>'


def panel(title, series, top, begin, end):
    """One panel, and what stands at its right; `series` has points (second, value) for each name."""
    scale = top_of_scale(max((value for points in series.values() for _, value in points), default=0))
    across, bottom = WIDTH - LEFT - RIGHT, top + TITLE + PANEL
    drawn = [text(LEFT, top + 16, title, more='font-weight="bold"')]
    for part in range(3):
        y = bottom - PANEL * part / 2
        drawn.append(f'<line x1="{LEFT}" y1="{y:.0f}" x2="{LEFT + across}" y2="{y:.0f}" stroke="#dddddd"/>')
        drawn.append(text(LEFT - 6, y + 4, f"{scale * part / 2:g}", "end"))
    for second in range(0, int(end - begin) + 1, 10):
        x = LEFT + across * second / (end - begin)
        drawn.append(text(x, bottom + 16, f"{second} s", "middle", 'fill="#666666"'))
    for place, (name, points) in enumerate(series.items()):
        colour = COLOURS[place % len(COLOURS)]
        at = [(LEFT + across * (second - begin) / (end - begin), bottom - PANEL * value / scale) for second, value in points]
        line = " ".join(f"{x:.1f},{y:.1f}" for x, y in at)
        drawn.append(f'<polyline points="{line}" fill="none" stroke="{colour}" stroke-width="1.6"/>')
        drawn.append(text(WIDTH - RIGHT + 12, top + TITLE + 12 + 16 * place, name, more=f'fill="{colour}"'))
    return drawn


def picture(panels):
    """The picture of panels (title, series)."""
    seconds = [second for _, series in panels for points in series.values() for second, _ in points]
    each = TITLE + PANEL + AXIS
    height = each * len(panels) + 8
    drawn = [f'<svg xmlns="http://www.w3.org/2000/svg" width="{WIDTH}" height="{height}" viewBox="0 0 {WIDTH} {height}">']
    drawn.append(f'<rect width="{WIDTH}" height="{height}" fill="white"/>')
    for place, (title, series) in enumerate(panels):
        drawn += panel(title, series, place * each, min(seconds), max(seconds))
    return "\n".join(drawn + ["</svg>", ""])
