"""A plot of ratios as bars that begin at one, on a scale of powers of two."""
import math
from html import escape

LEFT, WIDTH, BAR, GAP, TOP, HEAD = 270, 520, 8, 6, 56, 26
COLOURS = ("#1f6f54", "#b0b0b0")


def text(x, y, size, words, more=""):
    return f'<text x="{x:.1f}" y="{y:.1f}" font-size="{size}"{more}>{escape(words)}</text>'


def place_of(ratio, least, most):
    """Where a ratio stands, between the least and the most powers of two."""
    return LEFT + WIDTH * (math.log2(ratio) - least) / (most - least)


def bar(y, ratio, colour, scale):
    one, end = place_of(1, *scale), place_of(ratio, *scale)
    x, right = min(one, end), max(one, end)
    return f'<rect x="{x:.1f}" y="{y}" width="{right - x:.1f}" height="{BAR}" fill="{colour}"/>' + text(right + 4, y + BAR, 9, f"{ratio:.0f}" if ratio >= 10 else f"{ratio:.2g}")


def grid(scale, height):
    for power in range(scale[0], scale[1] + 1):
        x = place_of(2**power, *scale)
        yield f'<line x1="{x:.1f}" y1="{TOP - 6}" x2="{x:.1f}" y2="{height - 20}" stroke="{"#888" if power == 0 else "#ddd"}"/>'
        if power % 2 == 0:
            yield text(x, height - 6, 11, f"{2.0 ** power:g}", ' text-anchor="middle"')


def plotted(title, kinds, topics):
    """An SVG picture: topics by name, of rows of a name and a ratio of each kind, or None."""
    ratios = [ratio for rows in topics.values() for _, *found in rows for ratio in found if ratio]
    scale = math.floor(math.log2(min(1, *ratios))), math.ceil(math.log2(max(ratios)))
    step = len(kinds) * BAR + GAP
    height = TOP + sum(HEAD + len(rows) * step for rows in topics.values()) + 24
    lines = [
        f'<svg xmlns="http://www.w3.org/2000/svg" width="{LEFT + WIDTH + 60}" height="{height}" font-family="sans-serif" fill="#222">',
        '<rect width="100%" height="100%" fill="#fff"/>',
        text(8, 20, 14, title),
        *grid(scale, height),
    ]
    for place, kind in enumerate(kinds):
        x = LEFT + 230 * place
        lines += [f'<rect x="{x}" y="30" width="12" height="12" fill="{COLOURS[place]}"/>', text(x + 17, 41, 12, kind)]
    y = TOP
    for topic, rows in topics.items():
        lines.append(text(8, y + 16, 12, topic, ' font-weight="bold"'))
        y += HEAD
        for name, *found in rows:
            lines.append(text(LEFT - 8, y + BAR + 3, 11, name, ' text-anchor="end"'))
            lines += [bar(y + place * BAR, ratio, COLOURS[place], scale) for place, ratio in enumerate(found) if ratio]
            y += step
    return "\n".join(lines + ["</svg>"]) + "\n"
