"""Pictures as SVG, drawn with nothing but text."""
import math
from xml.sax.saxutils import escape

WIDTH, HEIGHT = 720, 420
LEFT, RIGHT, TOP, BOTTOM = 70, 170, 40, 50
COLORS = ("#1b5e8c", "#c8501e", "#3c7d3c", "#7a4a8c", "#a88a1e", "#8a8a8a")


def text(x, y, words, anchor="middle", size=13):
    return f'<text x="{x:.1f}" y="{y:.1f}" text-anchor="{anchor}" font-size="{size}">{escape(words)}</text>'


def line(x, y, to_x, to_y, color="#cccccc", width=1):
    return (f'<line x1="{x:.1f}" y1="{y:.1f}" x2="{to_x:.1f}" y2="{to_y:.1f}" stroke="{color}" '
            f'stroke-width="{width}"/>')


def picture(title, parts):
    head = (f'<svg xmlns="http://www.w3.org/2000/svg" viewBox="0 0 {WIDTH} {HEIGHT}" role="img" '
            f'font-family="sans-serif"><title>{escape(title)}</title>')
    return "\n".join([head, f'<rect width="{WIDTH}" height="{HEIGHT}" fill="#ffffff"/>',
                      text(WIDTH / 2, 22, title, size=15), *parts, "</svg>"]) + "\n"


def legend(names):
    x = WIDTH - RIGHT + 14
    for number, name in enumerate(names):
        y = TOP + 20 + 20 * number
        yield f'<rect x="{x}" y="{y - 10}" width="12" height="12" fill="{COLORS[number % len(COLORS)]}"/>'
        yield text(x + 18, y, name, "start", 12)


def ticks(values):
    """The powers of ten around some values."""
    low = math.floor(math.log10(min(values)))
    high = math.ceil(math.log10(max(values)))
    return [10.0 ** power for power in range(low, max(high, low + 1) + 1)]


def curves(title, across, up, series):
    """Curves over logarithms in both directions; a series is a list of points under its name."""
    points = [point for own in series.values() for point in own]
    columns = sorted({x for x, _ in points})
    rows = ticks([max(y, 1e-6) for _, y in points])

    def place(value, low, high, start, end):
        span = math.log(high / low) or 1
        return start + (end - start) * math.log(max(value, 1e-6) / low) / span

    def at_x(x):
        return place(x, columns[0], columns[-1], LEFT, WIDTH - RIGHT)

    def at_y(y):
        return place(y, rows[0], rows[-1], HEIGHT - BOTTOM, TOP)

    parts = [text((LEFT + WIDTH - RIGHT) / 2, HEIGHT - 8, across), text(14, TOP - 8, up, "start", 12)]
    for y in rows:
        parts += [line(LEFT, at_y(y), WIDTH - RIGHT, at_y(y)), text(LEFT - 6, at_y(y) + 4, f"{y:g}", "end", 11)]
    for x in columns:
        parts += [line(at_x(x), TOP, at_x(x), HEIGHT - BOTTOM), text(at_x(x), HEIGHT - BOTTOM + 16, f"{x:,}", size=11)]
    for number, own in enumerate(series.values()):
        path = " ".join(f"{at_x(x):.1f},{at_y(y):.1f}" for x, y in own)
        color = COLORS[number % len(COLORS)]
        parts.append(f'<polyline points="{path}" fill="none" stroke="{color}" stroke-width="2"/>')
    return picture(title, parts + list(legend(series)))


def bars(title, up, groups):
    """Bars from 0 of equal width, each a stack of parts; a group is a dictionary of parts under its name."""
    names = list(dict.fromkeys(name for parts in groups.values() for name in parts))
    most = max(sum(parts.values()) for parts in groups.values()) or 1
    step = 10 ** math.floor(math.log10(most))
    scale = (HEIGHT - TOP - BOTTOM) / (most * 1.05)
    room = (WIDTH - LEFT - RIGHT) / len(groups)
    parts = [text(14, TOP - 8, up, "start", 12)]
    for number in range(int(most / step) + 1):
        y = HEIGHT - BOTTOM - number * step * scale
        parts += [line(LEFT, y, WIDTH - RIGHT, y), text(LEFT - 6, y + 4, f"{number * step:,.10g}", "end", 11)]
    for place, (name, stack) in enumerate(groups.items()):
        y = HEIGHT - BOTTOM
        x = LEFT + room * (place + 0.15)
        for part, value in stack.items():
            y -= value * scale
            color = COLORS[names.index(part) % len(COLORS)]
            parts.append(f'<rect x="{x:.1f}" y="{y:.1f}" width="{room * 0.7:.1f}" height="{value * scale:.1f}" '
                         f'fill="{color}"/>')
        parts.append(text(x + room * 0.35, HEIGHT - BOTTOM + 16, name, size=11))
    return picture(title, parts + (list(legend(names)) if len(names) > 1 else []))
