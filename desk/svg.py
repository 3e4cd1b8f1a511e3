"""A plain SVG writer: lines, curves, boxes, circles and text."""

from typing import List, Sequence, Tuple
from xml.sax.saxutils import escape, quoteattr

FONT = "Helvetica, Arial, sans-serif"


class Svg:
    def __init__(self, width: int, height: int, title: str):
        self.width, self.height = width, height
        self._parts: List[str] = [f"<title>{escape(title)}</title>"]
        self.box(0, 0, width, height, fill="white")

    def _element(self, name: str, content: str = "", **attributes) -> None:
        written = "".join(f" {key.replace('_', '-')}={quoteattr(_short(value))}" for key, value in attributes.items())
        self._parts.append(f"<{name}{written}>{escape(content)}</{name}>" if content else f"<{name}{written}/>")

    def line(
        self, x1: float, y1: float, x2: float, y2: float, stroke: str = "black", width: float = 1, dash: str = "none"
    ) -> None:
        self._element("line", x1=x1, y1=y1, x2=x2, y2=y2, stroke=stroke, stroke_width=width, stroke_dasharray=dash)

    def curve(self, points: Sequence[Tuple[float, float]], stroke: str, width: float = 2, dash: str = "none") -> None:
        path = " ".join(f"{_short(x)},{_short(y)}" for x, y in points)
        self._element(
            "polyline",
            points=path,
            fill="none",
            stroke=stroke,
            stroke_width=width,
            stroke_dasharray=dash,
            stroke_linejoin="round",
        )

    def box(self, x: float, y: float, width: float, height: float, fill: str = "none", stroke: str = "none") -> None:
        self._element("rect", x=x, y=y, width=width, height=height, fill=fill, stroke=stroke)

    def circle(self, x: float, y: float, radius: float, fill: str, stroke: str = "black") -> None:
        self._element("circle", cx=x, cy=y, r=radius, fill=fill, stroke=stroke, stroke_width=1.5)

    def text(
        self, x: float, y: float, content: str, size: int = 13, anchor: str = "start", turned: bool = False
    ) -> None:
        turn = {"transform": f"rotate(-90 {_short(x)} {_short(y)})"} if turned else {}
        self._element("text", content, x=x, y=y, font_family=FONT, font_size=size, text_anchor=anchor, **turn)

    def render(self) -> str:
        head = (
            f'<svg xmlns="http://www.w3.org/2000/svg" width="{self.width}" height="{self.height}" viewBox="0 0 '
            f'{self.width} {self.height}">'
        )
        return "\n".join(['<?xml version="1.0" encoding="UTF-8"?>', head] + self._parts + ["</svg>"]) + "\n"


def _short(value) -> str:
    """Hundredths of a pixel are enough."""
    return f"{value:.2f}".rstrip("0").rstrip(".") if isinstance(value, float) else str(value)
