"""A drawing of boxes, lines and words, written as SVG: the same drawing is always the same bytes."""
from xml.sax.saxutils import escape

WORDS = "Helvetica, Arial, 'DejaVu Sans', sans-serif"
CODE = "'DejaVu Sans Mono', Menlo, Consolas, monospace"
INK, FAINT, GRID, PAPER = "#222222", "#666666", "#dddddd", "#ffffff"


def short(value):
    """A length with a tenth at most."""
    text = f"{value:.1f}".removesuffix(".0")
    return "0" if text == "-0" else text


def attributes(values):
    """Those that are given, as `name="value"`; an underscore stands for a hyphen."""
    given = {name.replace("_", "-"): value for name, value in values.items() if value is not None}
    shown = {name: value if isinstance(value, str) else short(value) for name, value in given.items()}
    return "".join(f' {name}="{escape(value)}"' for name, value in shown.items())


class Drawing:
    """What is drawn so far, on paper of a width and a height."""

    def __init__(self, width, height, says):
        """`says` is what the drawing shows, for who can't see it."""
        self.width, self.height, self.says, self.parts = width, height, says, []
        self.box(0, 0, width, height, PAPER)

    def add(self, name, **values):
        self.parts.append(f"<{name}{attributes(values)}/>")

    def box(self, left, top, width, height, fill, edge=None, rounding=None, dashes=None):
        self.add("rect", x=left, y=top, width=width, height=height, rx=rounding, fill=fill, stroke=edge,
                 stroke_dasharray=dashes)

    def line(self, points, color=INK, width=1, dashes=None):
        """A line through points."""
        through = " ".join(f"{short(x)},{short(y)}" for x, y in points)
        self.add("polyline", points=through, fill="none", stroke=color, stroke_width=width, stroke_dasharray=dashes,
                 stroke_linejoin="round")

    def arrow(self, points, color=INK, width=1.5, dashes=None):
        """A line through points with a head at its end, which is level or upright there."""
        (x_before, y_before), (x, y) = points[-2:]
        along, across = ((x > x_before) - (x < x_before), (y > y_before) - (y < y_before))
        neck = (x - 7 * along, y - 7 * across)
        self.line([*points[:-1], neck], color, width, dashes)
        sides = [(neck[0] + 4 * across * side, neck[1] + 4 * along * side) for side in (1, -1)]
        self.add("polygon", points=" ".join(f"{short(a)},{short(b)}" for a, b in [(x, y), *sides]), fill=color)

    def dot(self, x, y, color, radius=3):
        self.add("circle", cx=x, cy=y, r=radius, fill=color)

    def text(self, x, y, words, size=12, color=INK, anchor=None, weight=None, family=None, turned=False):
        """Words whose base line is at y; `turned` ones run upwards."""
        turn = f"rotate(-90 {short(x)} {short(y)})" if turned else None
        given = attributes({"x": x, "y": y, "font_size": size, "fill": color, "text_anchor": anchor,
                            "font_weight": weight, "font_family": family, "transform": turn})
        self.parts.append(f"<text{given}>{escape(words)}</text>")

    def written(self):
        size = f'width="{self.width}" height="{self.height}" viewBox="0 0 {self.width} {self.height}"'
        head = f'<svg xmlns="http://www.w3.org/2000/svg" {size} font-family="{WORDS}" role="img">'
        return "\n".join([head, f"<title>{escape(self.says)}</title>", *self.parts, "</svg>", ""])
