"""What pictures (SVG) are made of: a page, its elements and its texts.

Every fill is plain: patterns make a PDF of a picture grow by megabytes. On a dark page the paper is dark too. In print a
picture goes on from page to page, and nothing stands across the end of one.
"""

import unicodedata
import xml.etree.ElementTree as xml

from .text import printable

WIDTH, MARGIN = 1000, 24
USABLE = WIDTH - 2 * MARGIN
FONT = "DejaVu Sans, Verdana, Arial, sans-serif"

# A page in print, as wide as the picture and in the proportions of A4.
PAGE = 1414

# Paul Tol's light colours without his grey: told apart by the colour-blind, and black text is easy to read on each.
COLOURS = ["#77AADD", "#EE8866", "#EEDD88", "#FFAABB", "#99DDFF", "#44BB99", "#BBCC33", "#AAAA00"]
INK, FAINT = "#111111", "#5A5A5A"
PAPER, STRIPE, GRID, EDGE = "#FFFFFF", "#F7F7F7", "#E2E2E2", "#BBBBBB"
UNUSED, SILENT = "#F1F1F1", "#6E6E6E"

# The colours that are others on a dark page. Boxes and the words in them stay as they are.
DARK = {PAPER: "#16181D", STRIPE: "#1E2127", GRID: "#363A42", EDGE: "#5F646D", UNUSED: "#2C3038", FAINT: "#A9AEB6"}
DARK_INK = "#E8E8E8"

# Printed pages, in a file. Inside another page, as in a notebook, it would set the size of that page.
PRINTED = f"@page {{ size: {WIDTH}px {PAGE}px; margin: 0 }}"
NAME = "bus-picture"

BAND = 4  # high, below the box of a task of the second eight


def _dark():
    """The rules for dark pages; they hold inside pictures alone."""
    rules = [f".{NAME} {{ fill: {DARK_INK} }}"]
    for light, dark in DARK.items():
        rules.append(f'.{NAME} [fill="{light}"] {{ fill: {dark} }} .{NAME} [stroke="{light}"] {{ stroke: {dark} }}')
    lines = f'.{NAME} line[stroke="{INK}"], .{NAME} .frame, .{NAME} .carried'
    rules.append(f"{lines} {{ stroke: {DARK_INK} }} .{NAME} .mark, .{NAME} .band {{ fill: {DARK_INK} }}")
    return f"@media (prefers-color-scheme: dark) {{ {' '.join(rules)} }}"


def page(title):
    """The SVG element of a page that has no height yet."""
    looks = {"font-family": FONT, "fill": INK, "role": "img", "class": NAME}
    svg = xml.Element("svg", {"xmlns": "http://www.w3.org/2000/svg", **looks})
    add(svg, "title", printable(title))
    add(svg, "style", f"{PRINTED} {_dark()}")
    return svg


def inside(text):
    """A picture for the inside of another page."""
    return text.replace(f"{PRINTED} ", "")


def finished(svg, paper, height):
    """The text of the SVG file, the page being so high."""
    height = int(height)
    paper.set("height", str(height))
    svg.attrib.update(width=str(WIDTH), height=str(height), viewBox=f"0 0 {WIDTH} {height}")
    svg.set("style", "max-width: 100%; height: auto")
    xml.indent(svg)
    return '<?xml version="1.0" encoding="UTF-8"?>\n' + xml.tostring(svg, encoding="unicode") + "\n"


def fitting(top, height):
    """The first place from `top` on where something so high does not stand across the end of a page."""
    end = (top // PAGE + 1) * PAGE - MARGIN
    return top if top + height <= end or height > PAGE - 2 * MARGIN else end + 2 * MARGIN


def room(top):
    """How much of the page is left below this place."""
    return (top // PAGE + 1) * PAGE - MARGIN - top


def coordinate(value):
    return f"{value:.2f}".rstrip("0").rstrip(".") if isinstance(value, float) else str(value)


def add(parent, tag, text=None, **attributes):
    """A new element; in the names of attributes _ stands for - ."""
    named = {name.rstrip("_").replace("_", "-"): coordinate(value) for name, value in attributes.items()}
    element = xml.SubElement(parent, tag, named)
    element.text = text
    return element


def write(parent, x, y, text, size=11, **attributes):
    return add(parent, "text", text, x=x, y=y, font_size=size, **attributes)


def line(parent, start, end, **attributes):
    (x, y), (to_x, to_y) = start, end
    return add(parent, "line", x1=x, y1=y, x2=to_x, y2=to_y, **attributes)


def outline(carry, width):
    """Dashed if carried; thin around a box so narrow that its colour would not be seen."""
    if carry:
        return {"stroke": INK, "stroke_dasharray": "4 2.5", "stroke_width": min(2.0, max(0.4, width / 4))}
    return {"stroke": INK, "stroke_width": min(0.8, max(0.2, width / 8))}


def pale(parent, task, place, carry=False, **attributes):
    """A box in a pale colour of the task, on paper, around the task's own box."""
    shape = dict(zip(("x", "y", "width", "height"), place))
    add(parent, "rect", class_="paper", **shape, fill=PAPER)
    style = {"fill": COLOURS[task % len(COLOURS)], "fill_opacity": 0.35, **outline(carry, place[2])}
    add(parent, "rect", **shape, **{**style, **attributes})


def box(parent, task, place, carry=False, **attributes):
    """The box of a task at (x, y, width, height). The second eight tasks have the colours of the first, with a band."""
    x, y, width, height = place
    colour = COLOURS[task % len(COLOURS)]
    shape = {"x": x, "y": y, "width": width, "height": height}
    add(parent, "rect", **shape, fill=colour, **{**outline(carry, width), **attributes})
    if task >= len(COLOURS):
        high = min(BAND, height / 3)
        add(parent, "rect", class_="band", x=x, y=y + height - high, width=width, height=high, fill="#333333")


def _letter_width(letter):
    """In hundredths of the size of the text."""
    if unicodedata.east_asian_width(letter) in "WF":
        return 105
    if unicodedata.combining(letter):
        return 0
    if letter in "ijl.,:;'|!()[]ftr ":
        return 42
    return 100 if letter in "mwMW@%" else 80 if letter.isupper() else 65


def width_of(text, size=11):
    """About how wide a text is; rather too wide than too narrow."""
    return size * sum(map(_letter_width, text)) / 100


def shortened(text, width, size=11):
    """The text, or as much of it as is so wide, with ~ behind it."""
    text = printable(text)
    if width_of(text, size) <= width:
        return text
    while text and width_of(text + "~", size) > width:
        text = text[:-1]
    return text + "~"


def in_two(text, width, size=11):
    """The text in one line, or in two of them of this width, the first one broken at a blank if there is one."""
    text = printable(text)
    if width_of(text, size) <= width:
        return [text]
    fits = next(at for at in range(len(text), 0, -1) if at == 1 or width_of(text[:at], size) <= width)
    blank = text.rfind(" ", fits // 2, fits + 1)
    at = blank if blank > 0 else fits
    return [text[:at], shortened(text[at:].strip(), width, size)]


def steps(unit, scale, distance):
    """The least number of ticks, a multiple of the unit by 1, 2 or 5 times a power of ten, that takes so much room."""
    power = 1
    while True:
        for digit in (1, 2, 5):
            if digit * power * unit * scale >= distance:
                return digit * power * unit
        power *= 10


def ticks(unit, scale, distance, end, marked):
    """The ticks of an axis that get a number: steps from 0 to the end, none too near a marked one, which has its own."""
    step = steps(unit, scale, distance)
    return [tick for tick in range(0, end + 1, step) if abs(tick - marked) * scale >= distance * 0.8]
