"""Pictures as SVG: panels with axes, and what the scripts draw into them."""
import re
from fractions import Fraction
from html import escape
from math import floor, log10

from fuzz12 import Wrong

STYLE = {
    "text": "font: 12px sans-serif; fill: #222", ".title": "font-weight: bold", ".note": "fill: #555",
    ".small": "font-size: 9px; fill: #6a51a3; stroke: white; stroke-width: 3; paint-order: stroke",
    ".frame": "fill: none; stroke: #999",
    ".grid": "stroke: #e4e4e4", ".input": "fill: none; stroke: #555; stroke-width: 1.5",
    ".band": "fill: #9ecae1; fill-opacity: .55", ".exact": "fill: none; stroke: #08519c; stroke-width: 1.5",
    ".answer": "fill: #d94801", ".fault": "fill: none; stroke: #cb181d; stroke-width: 1.5",
    ".interrupt": "stroke: #6a51a3; stroke-dasharray: 3 3", ".tick": "stroke: #6a51a3",
    ".limit": "stroke: #4292c6", ".off": "fill: none; stroke: #d94801",
    ".box": "fill: none; stroke: #222; stroke-width: .5; stroke-opacity: .4",
    ".cells": "fill: none; stroke: #f03b20; stroke-width: 1.6; stroke-linecap: round",
    ".term": "stroke: white; stroke-width: 3; paint-order: stroke",
    ".level": "font-size: 9px; fill: #222; stroke: white; stroke-width: 2; stroke-opacity: .7; paint-order: stroke",
    ".contour": "fill: none; stroke: #222; stroke-width: 1.1",
}
COLOURS = ["#1f77b4", "#d94801", "#2ca02c", "#9467bd", "#8c564b", "#e377c2", "#7f7f7f", "#bcbd22", "#17becf", "#222"]

UNITS = {"s": 1, "min": 60, "h": 3600}  # in seconds
NO_BOUND = 1000000  # an error that is the whole range says nothing
BOLD, PLAIN, SMALL = 7.3, 6.2, 5.4  # how wide a letter is, taken over words


def time_of(words, option):
    """The number and the unit of a time."""
    parts = re.fullmatch(r"(\d+(?:\.\d+)?)(s|min|h)", words)
    if not parts or not Fraction(parts[1]):
        raise Wrong(f"{option} {words}: a time as 0.5s, 10min or 1h is wanted")
    return Fraction(parts[1]), parts[2]


def short(number):
    """A coordinate or a number as text, without zeros that say nothing."""
    return f"{float(number):.1f}".rstrip("0").rstrip(".") if "." in f"{float(number):.1f}" else f"{float(number):.1f}"


def text(x, y, words, kind="", anchor="start", turn=0):
    turned = f' transform="rotate({turn} {short(x)} {short(y)})"' if turn else ""
    named = f' class="{kind}"' if kind else ""
    placed = "" if anchor == "start" else f' text-anchor="{anchor}"'
    return f'<text{named} x="{short(x)}" y="{short(y)}"{placed}{turned}>{escape(words, quote=False)}</text>'


def line(x1, y1, x2, y2, kind):
    return f'<line class="{kind}" x1="{short(x1)}" y1="{short(y1)}" x2="{short(x2)}" y2="{short(y2)}"/>'


def path(points, kind, colour=None, closed=False):
    """A course through points of the picture."""
    drawn = "M" + " ".join(f"{short(x)},{short(y)}" for x, y in points) + ("Z" if closed else "")
    coloured = f' style="stroke: {colour}"' if colour else ""
    return f'<path class="{kind}" d="{drawn}"{coloured}/>'


def round_numbers(low, high, most):
    """Some round numbers from low to high, hardly more than the most; where they are few the two ends too."""
    low, high = float(low), float(high)
    rough = (high - low) / most
    ten = 10 ** floor(log10(rough))
    step = next(it * ten for it in (1, 2, 2.5, 5, 10) if it * ten >= rough * 0.999)
    first = -floor(-low / step + 1e-9)
    found = [k * step for k in range(first, floor(high / step + 1e-9) + 1)]
    return found if len(found) > 1 else sorted({low, *found, high})


def marks(low, high, most, room):
    """The two ends, and the round numbers between them that are not too near to one; room is what a number's words
    need, as a part of the whole."""
    low, high = float(low), float(high)
    inner = [it for it in round_numbers(low, high, most) if min(it - low, high - it) > room * (high - low)]
    return [low, *inner, high]


def outward(numbers):
    """A span with round ends for the numbers."""
    low, high = float(min(numbers)), float(max(numbers))
    room = (high - low) / 20 or abs(high) / 20 or 1
    low, high = low - room, high + room
    first, second, *_ = round_numbers(low, high, 6)
    step = second - first
    return floor(low / step) * step, -floor(-high / step) * step


class Panel:
    """A part of the picture with axes of its own: `across` and `up` are the numbers from the left and from below."""

    def __init__(self, left, top, width, height, across, up):
        self.left, self.top, self.width, self.height = left, top, width, height
        self.across, self.up = [float(it) for it in across], [float(it) for it in up]

    @property
    def right(self):
        return self.left + self.width

    @property
    def bottom(self):
        return self.top + self.height

    def x(self, number):
        low, high = self.across
        return self.left + self.width * (min(max(float(number), low), high) - low) / (high - low)

    def y(self, number):
        low, high = self.up
        return self.bottom - self.height * (min(max(float(number), low), high) - low) / (high - low)

    def at(self, points):
        return [(self.x(x), self.y(y)) for x, y in points]

    def course(self, points, kind, colour=None, closed=False):
        return path(self.at(points), kind, colour, closed)

    def frame(self, title, note="", above=0):
        """The frame with its title, so far above it, and a note at the right, as text or as words with their colours.
        Where both do not fit into one line the title stands higher."""
        words = note if isinstance(note, str) else "  ".join(name for name, _ in note)
        low, most = self.top - 6 - above, int(self.width / BOLD)
        high = low - 14 if note and len(title) * BOLD + len(words) * PLAIN + 12 > self.width else low
        yield f'<rect class="frame" x="{self.left}" y="{self.top}" width="{self.width}" height="{self.height}"/>'
        yield text(self.left, high, title if len(title) <= most else title[:most - 1] + "…", "title")
        if isinstance(note, str) and note:
            yield text(self.right, low, note, "note", "end")
        elif note:
            spans = "  ".join(f'<tspan style="fill: {colour}">{escape(name)}</tspan>' for name, colour in note)
            yield f'<text x="{self.right}" y="{low}" text-anchor="end" xml:space="preserve">{spans}</text>'

    def scale(self, most=4):
        """The numbers at the left side."""
        for number in marks(*self.up, most, 14 / self.height):
            yield line(self.left, self.y(number), self.right, self.y(number), "grid")
            yield text(self.left - 6, self.y(number) + 4, f"{number:g}", anchor="end")

    def ruler(self, name, most=8):
        """The numbers below it."""
        widest = max(len(f"{it:g}") for it in round_numbers(*self.across, most)) * PLAIN + 8
        for number in marks(*self.across, most, widest / self.width):
            yield line(self.x(number), self.bottom, self.x(number), self.bottom + 4, "frame")
            yield text(self.x(number), self.bottom + 16, f"{number:g}", anchor="middle")
        if name:
            yield text(self.right, self.bottom + 32, name, "note", "end")


def svg(width, height, title, parts):
    """The whole picture; of the styles it has those that its parts use."""
    parts = list(parts)
    drawn = "\n".join(parts)
    used = [(name, rule) for name, rule in STYLE.items() if name == "text" or f'class="{name[1:]}"' in drawn]
    style = " ".join(f"{name} {{ {rule} }}" for name, rule in [*used, (".title", STYLE[".title"])])
    return "\n".join([
        f'<svg xmlns="http://www.w3.org/2000/svg" viewBox="0 0 {width} {height}" width="{width}" height="{height}">',
        f"<style>{style}</style>", f'<rect width="{width}" height="{height}" fill="white"/>',
        text(12, 20, title, "title"), drawn, "</svg>"]) + "\n"


def dot(x, y):
    """A part of a path that is a dot, where its ends are round."""
    return f"M{short(x)},{short(y)}h0"


def labelled(variable):
    """A variable's name with what its comment says of it."""
    return f"{variable.name}, {variable.comment}" if variable.comment else variable.name


def with_unit(variable):
    """A variable's name with its unit, where it has one."""
    return f"{variable.name}, {variable.unit}" if variable.unit else variable.name


def amount(number, variable):
    """A number with the unit of a variable, where it has one."""
    return f"{float(number):.4g} {variable.unit}".rstrip()


def rounded_up(number, digits):
    """A number above 0 as so many digits, which never stand for less."""
    number = Fraction(number).limit_denominator(10**9)
    if number:
        size = Fraction(10) ** (floor(log10(number)) - digits + 1)
        number = -floor(-number / size) * size
    return f"{float(number):.{digits}g}"


def at_most(number, variable):
    """A bound with the unit of a variable, never told as less than it is."""
    return f"{rounded_up(number, 6)} {variable.unit}".rstrip()
