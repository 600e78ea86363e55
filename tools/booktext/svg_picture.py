"""Networks as a picture in SVG: one below another, each with its question above it and its places on a line.

The chain's own links are straight. Those that the rules force are bent, above the line where they lead ahead and below
it where they lead back, the farther the higher; the link that is missing is dashed.
"""

from collections.abc import Sequence
from html import escape

from .networks import Arrow, NamedNetwork

RADIUS = 13
BEND = 30  # the height of an arrow, for each place that it leads on
MARGIN = 50
LETTER = 7  # about the width of one
MOST_NAMES = 3  # on one arrow; how many more there are is told there, and which ones by its title

INK, FORCED, MISSING = "#000000", "#3060a0", "#b02020"
HEADS = {INK: "own", FORCED: "forced", MISSING: "missing"}


def write(networks: Sequence[NamedNetwork]) -> str:
    drawings = [Drawing(network) for network in networks]
    width = max(drawing.width for drawing in drawings)
    top, parts = 0, []
    for drawing in drawings:
        parts.append(f'<g transform="translate(0 {top})">\n{drawing.drawn()}</g>\n')
        top += drawing.height
    size = f'width="{width}" height="{top}" viewBox="0 0 {width} {top}"'
    heads = "".join(head(name, colour) for colour, name in HEADS.items())
    return (
        f'<svg xmlns="http://www.w3.org/2000/svg" {size} font-family="sans-serif" font-size="12">\n'
        f'<defs>\n{heads}</defs>\n<rect width="100%" height="100%" fill="white"/>\n{"".join(parts)}</svg>\n'
    )


def head(name: str, colour: str) -> str:
    """The head of an arrow."""
    shape = f'<path d="M0 0 L8 4 L0 8 Z" fill="{colour}"/>'
    place = 'refX="8" refY="4" markerWidth="8" markerHeight="8" markerUnits="userSpaceOnUse" orient="auto"'
    return f'<marker id="{name}" {place}>{shape}</marker>\n'


def words(names: Sequence[str]) -> str:
    """The names at an arrow: the first few, and how many more."""
    more = f" +{len(names) - MOST_NAMES}" if len(names) > MOST_NAMES else ""
    return ", ".join(names[:MOST_NAMES]) + more


def text(x: float, y: float, names: Sequence[str], colour: str) -> str:
    title = f"<title>{escape(', '.join(names))}</title>" if len(names) > MOST_NAMES else ""
    return f'<text x="{x:g}" y="{y:g}" text-anchor="middle" fill="{colour}">{title}{escape(words(names))}</text>'


class Drawing:
    """One network. The line of places has the question and all arrows that lead ahead above it."""

    def __init__(self, network: NamedNetwork) -> None:
        self.network = network
        self.forced = network.forced()
        names = [words(arrow.names) for arrow in self.forced] + [name for _, _, name in network.own()]
        self.step = max(90, 3 * RADIUS + LETTER * max(map(len, names)))
        self.line = MARGIN + BEND * (network.last + 1)
        back = max((arrow.start - arrow.end for arrow in self.forced), default=0)
        self.height = self.line + BEND * max(back, 1) + MARGIN // 2
        self.width = max(2 * MARGIN + self.step * network.last, MARGIN + 8 * len(f"{network.question}: no"))

    def drawn(self) -> str:
        question = escape(f"{self.network.question}: no")
        parts = [f'<text x="{MARGIN // 2}" y="20" font-size="14">{question}</text>']
        for start, end, name in self.network.own():
            parts += self.straight(start, end, name)
        for arrow in self.forced:
            parts += self.itself(arrow) if arrow.start == arrow.end else self.bent(arrow, 0, FORCED)
        parts += self.bent(Arrow(0, self.network.last, (f"no {self.network.question.role}",)), BEND, MISSING)
        parts += map(self.circle, range(self.network.last + 1))
        return "".join(f"{part}\n" for part in parts)

    def across(self, place: int) -> int:
        return MARGIN + self.step * place

    def circle(self, place: int) -> str:
        x = self.across(place)
        shape = f'<circle cx="{x}" cy="{self.line}" r="{RADIUS}" fill="white" stroke="{INK}"/>'
        return f'{shape}<text x="{x}" y="{self.line + 4}" text-anchor="middle">{place}</text>'

    def straight(self, start: int, end: int, name: str) -> list[str]:
        """A link between neighbours."""
        rim = RADIUS if start < end else -RADIUS
        x1, x2 = self.across(start) + rim, self.across(end) - rim
        ends = f'x1="{x1}" y1="{self.line}" x2="{x2}" y2="{self.line}"'
        stroke = f'stroke="{INK}" stroke-width="2" marker-end="url(#{HEADS[INK]})"'
        return [f"<line {ends} {stroke}/>", text((x1 + x2) / 2, self.line - 5, [name], INK)]

    def bent(self, arrow: Arrow, more: int, colour: str) -> list[str]:
        """A link above or below the line, its names at its top."""
        start, end, names = arrow
        side = -1 if start < end else 1
        x1, x2 = self.across(start), self.across(end)
        rim = self.line + side * RADIUS
        rise = BEND * abs(end - start) + more
        # The curve goes half as far out as the point that it bends towards.
        curve = f'd="M{x1} {rim} Q{(x1 + x2) / 2:g} {rim + side * 2 * (rise - RADIUS)} {x2} {rim}"'
        dashes = ' stroke-dasharray="5 4"' if colour == MISSING else ""
        stroke = f'fill="none" stroke="{colour}"{dashes} marker-end="url(#{HEADS[colour]})"'
        below = self.line + side * rise + (-4 if side < 0 else 12)
        return [f"<path {curve} {stroke}/>", text((x1 + x2) / 2, below, names, colour)]

    def itself(self, arrow: Arrow) -> list[str]:
        """A link of a place to itself, below it."""
        x, y = self.across(arrow.start), self.line + RADIUS - 2
        curve = f'd="M{x - 6} {y} C{x - 24} {y + 28} {x + 24} {y + 28} {x + 6} {y}"'
        stroke = f'fill="none" stroke="{FORCED}" marker-end="url(#{HEADS[FORCED]})"'
        return [f"<path {curve} {stroke}/>", text(x, y + 32, arrow.names, FORCED)]
