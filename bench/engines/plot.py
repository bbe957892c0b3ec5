"""The plot: an SVG of bars, a group a workload and a bar an engine, whose length goes with the logarithm of its seconds."""
import math

COLOURS = {"eddyql": "#1b6ca8", "sqlite3": "#d1495b", "sqlite3, index": "#e8a0aa", "PostgreSQL": "#66a182", "Miller": "#edae49", "awk": "#8d96a3"}
BAR, GAP, LEFT, RIGHT, TOP = 11, 12, 110, 640, 46


def colour(engine):
    return COLOURS.get(engine, "#444444")


def of_text(x, y, said, more=""):
    escaped = said.replace("&", "&amp;").replace("<", "&lt;")
    return f'<text x="{x:.1f}" y="{y:.1f}" {more}>{escaped}</text>'


def length(seconds, least, most):
    """Of a bar: from the least power of ten at the left to the greatest at the right."""
    return (math.log10(max(seconds, least)) - math.log10(least)) / (math.log10(most) - math.log10(least)) * (RIGHT - LEFT)


def plot(engines, groups):
    """The SVG of groups: pairs of a workload's name and a list of pairs of an engine and its seconds, or None where it was late."""
    known = [seconds for _, bars in groups for _, seconds in bars if seconds]
    least = 10.0 ** math.floor(math.log10(min(known, default=0.1)))
    most = 10.0 ** math.ceil(math.log10(max(max(known, default=1.0), 10 * least)))
    height = TOP + sum(len(bars) * BAR + GAP for _, bars in groups) + 24
    drawn = [f'<svg xmlns="http://www.w3.org/2000/svg" width="{RIGHT + 90}" height="{height}" font-family="sans-serif" font-size="10">',
             '<rect width="100%" height="100%" fill="white"/>', of_text(LEFT, 14, "processor seconds, from CSV to CSV", 'font-weight="bold"')]
    for i, engine in enumerate(engines):
        x = LEFT + i * (RIGHT + 90 - LEFT) // len(engines)
        drawn.append(f'<rect x="{x}" y="22" width="9" height="9" fill="{colour(engine)}"/>')
        drawn.append(of_text(x + 13, 30, engine))
    power = least
    while power <= most * 1.001:
        x = LEFT + length(power, least, most)
        drawn.append(f'<line x1="{x:.1f}" y1="{TOP - 6}" x2="{x:.1f}" y2="{height - 20}" stroke="#dddddd"/>')
        drawn.append(of_text(x, height - 8, f"{power:g}", 'text-anchor="middle"'))
        power *= 10
    y = TOP
    for name, bars in groups:
        drawn.append(of_text(LEFT - 6, y + len(bars) * BAR / 2 + 4, name, 'text-anchor="end"'))
        for engine, seconds in bars:
            wide = length(seconds, least, most) if seconds else RIGHT - LEFT
            look = f'fill="{colour(engine)}"' if seconds else f'fill="none" stroke="{colour(engine)}" stroke-dasharray="3 2"'
            drawn.append(f'<rect x="{LEFT}" y="{y}" width="{max(wide, 1):.1f}" height="{BAR - 2}" {look}/>')
            drawn.append(of_text(LEFT + wide + 4, y + 8, f"{seconds:.2g}" if seconds else "too long"))
            y += BAR
        y += GAP
    return "\n".join([*drawn, "</svg>", ""])
