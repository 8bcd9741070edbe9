"""The chart of ratios, as SVG: a bar for each, from 1 to the right where ours is better and to the left where it is worse."""
import html
import math

LEFT, WIDTH, ROW, BAR = 300, 460, 24, 14
BETTER, WORSE = "#21918c", "#b63679"


def groups_of(ratios):
    """The ratios by their groups, in their order."""
    groups = {}
    for one in ratios:
        groups.setdefault(one.group, []).append(one)
    return groups


def decades(ratios):
    """The powers of ten between which all ratios are, with 1 among them."""
    powers = [math.log10(one.times) for one in ratios]
    return math.floor(min(powers, default=0)), max(1, math.ceil(max(powers, default=0)))


def text(x, y, words, more=""):
    return f'<text x="{x:.1f}" y="{y:.1f}"{more}>{html.escape(words)}</text>'


def axis(first, last, place, height):
    """The lines of the powers of ten."""
    lines = []
    for power in range(first, last + 1):
        x = place(10 ** power)
        lines.append(f'<path d="M{x:.1f} 48V{height - 28}" stroke="{"#444" if power == 0 else "#ddd"}"/>')
        lines.append(text(x, height - 12, f"{10 ** power:g}", ' text-anchor="middle"'))
    return lines


def bar(one, place, y):
    """A ratio: its name, its bar and its number, which stands right of the bar."""
    ends = sorted((place(1), place(one.times)))
    color = BETTER if one.times >= 1 else WORSE
    return [
        text(LEFT - 10, y + BAR - 3, one.name, ' text-anchor="end"'),
        f'<rect x="{ends[0]:.1f}" y="{y}" width="{max(1, ends[1] - ends[0]):.1f}" height="{BAR}" fill="{color}"/>',
        text(ends[1] + 5, y + BAR - 3, f"{one.times:.2g}" if one.times < 10 else f"{one.times:.0f}"),
    ]


def chart(title, ratios):
    """The chart of some ratios, in groups, along a scale of powers of ten."""
    first, last = decades(ratios)

    def place(times):
        return LEFT + WIDTH * (math.log10(times) - first) / (last - first)

    drawn, y = [], 56
    for group, ones in groups_of(ratios).items():
        drawn.append(text(16, y + BAR - 2, group, ' font-weight="bold"'))
        for one in ones:
            y += ROW
            drawn += bar(one, place, y)
        y += ROW + 8
    height = y + 32
    head = f'<svg xmlns="http://www.w3.org/2000/svg" width="{LEFT + WIDTH + 60}" height="{height}" viewBox="0 0 {LEFT + WIDTH + 60} {height}" font-family="Liberation Sans, Arial, Helvetica, sans-serif" font-size="12">'
    ground = ['<rect width="100%" height="100%" fill="#fff"/>', text(16, 32, title, ' font-size="16" font-weight="bold"')]
    return "\n".join([head, *ground, *axis(first, last, place, height), *drawn, "</svg>"]) + "\n"
