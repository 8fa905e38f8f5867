"""The bar chart of a comparison, as SVG that reads on light and on dark pages."""

import html

# By the order of the bars. The colours stand out on white and on black alike.
COLOURS = {"fbcheck": "#2f81f7", "reflection": "#bf7b30", "generated": "#57965c"}
NAMES = {"fbcheck": "fbcheck", "reflection": "C++, by reflection", "generated": "C++, generated code"}
WIDTH = 760
LEFT = 190
ROOM = 400
TOP = 64
BAR = 15
GROUP = 3 * BAR + 17
STYLE = """
  text { font: 12px sans-serif; fill: #6e7781; }
  .title { font-size: 14px; font-weight: bold; }
  .corpus { font-weight: bold; }
  @media (prefers-color-scheme: light) { text { fill: #24292f; } }
  @media (prefers-color-scheme: dark) { text { fill: #d0d7de; } }
"""


def text(x, y, words, kind="", end=False):
    marks = f' class="{kind}"' if kind else ""
    marks += ' text-anchor="end"' if end else ""
    return f'<text x="{x:g}" y="{y:g}"{marks}>{html.escape(words)}</text>'


def bar(x, y, width, colour):
    return f'<rect x="{x:g}" y="{y:g}" width="{width:.1f}" height="{BAR - 2}" fill="{colour}"/>'


def legend():
    """Which colour is which program."""
    drawn = []
    for place, name in enumerate(COLOURS):
        x = LEFT + 150 * place
        drawn += [bar(x, 34, BAR - 2, COLOURS[name]), text(x + BAR + 3, 44, NAMES[name])]
    return drawn


def shown(seconds):
    """A time in the unit that suits it."""
    for size, unit in [(1, "s"), (1e-3, "ms"), (1e-6, "µs")]:
        if seconds >= size:
            return f"{seconds / size:.3g} {unit}"
    return f"{seconds * 1e9:.3g} ns"


def group(y, corpus, costs, longest):
    """The bars of one corpus, of which fbcheck's is the measure."""
    heads = [(y + 14, corpus.name, "corpus"), (y + 30, corpus.shape, "")]
    drawn = [text(LEFT - 10, below, words, kind, end=True) for below, words, kind in heads]
    for place, name in enumerate(COLOURS):
        seconds = costs[name].best
        ratio = seconds / costs["fbcheck"].best
        width = ROOM * ratio / longest
        label = f"{ratio:.2f}  ({shown(seconds / corpus.units(corpus.timed))} a {corpus.unit})"
        top = y + BAR * place
        drawn += [bar(LEFT, top, width, COLOURS[name]), text(LEFT + width + 6, top + 11, label)]
    return drawn


def chart(measured):
    """The chart of what was measured, a list of pairs of a corpus and its costs."""
    longest = max(cost.best / costs["fbcheck"].best for _, costs in measured for cost in costs.values())
    drawn = [text(LEFT, 20, "Time to verify a stream, fbcheck = 1 (shorter is better)", "title"), *legend()]
    for place, (corpus, costs) in enumerate(measured):
        drawn += group(TOP + GROUP * place, corpus, costs, longest)
    height = TOP + GROUP * len(measured)
    lines = [
        f'<svg xmlns="http://www.w3.org/2000/svg" width="{WIDTH}" height="{height}" viewBox="0 0 {WIDTH} {height}">',
        f"<style>{STYLE}</style>",
        *drawn,
        "</svg>",
    ]
    return "\n".join(lines) + "\n"
