"""Pieces of the pictures that `tools/picture` and `tools/watch` make: elements, texts, colours, numbers.

The colours are of the palette of Okabe and Ito (2008) and grays. Blue, orange and gray are those that are to be told apart:
readers with each kind of colour blindness can (`tests/pictures.py` measures it).
"""

import math
import re
from xml.sax.saxutils import escape, quoteattr

BLUE, ORANGE, VERMILION = "#0072b2", "#e69f00", "#d55e00"
BLACK, GRAY, PALE, WHITE = "#000000", "#595959", "#b3b3b3", "#ffffff"
FONT = "DejaVu Sans, Verdana, Arial, sans-serif"
NO_XML = re.compile("[^\t\n\r\u0020-\ud7ff\ue000-\ufffd\U00010000-\U0010ffff]")


def element(name, attributes, content=None):
    """An element; numbers get two decimals at most, and a `_` in the name of an attribute stands for `-`."""
    written = "".join(f" {key.replace('_', '-')}={quoteattr(number(value))}" for key, value in attributes.items() if value is not None)
    return f"<{name}{written}/>" if content is None else f"<{name}{written}>{content}</{name}>"


def number(value):
    return f"{value:.2f}".rstrip("0").rstrip(".") if isinstance(value, float) else str(value)


def letters(text):
    """A text as XML takes it: what may not stand there is replaced."""
    return escape(NO_XML.sub("\ufffd", text))


def width_of(text, size, bold=False):
    """About how wide a text is: rather too wide than too narrow."""
    return len(text) * size * (0.68 if bold else 0.61)


def text(x, y, words, size=12, bold=False, colour=BLACK, anchor=None, most=None):
    """A text, cut off where it would be wider than it may be."""
    if most and width_of(words, size, bold) > most:
        words = words[: max(1, int(most / width_of("m", size, bold)) - 1)].rstrip(" ,") + "\u2026"
    attributes = {"x": x, "y": y, "font_size": size, "fill": colour, "font_weight": "bold" if bold else None, "text_anchor": anchor}
    return element("text", attributes, letters(words))


def title(words):
    """What is shown while the pointer is over an element."""
    return f"<title>{letters(words)}</title>"


def document(width, height, name, body):
    """A whole picture on white."""
    size = {"xmlns": "http://www.w3.org/2000/svg", "viewBox": f"0 0 {math.ceil(width)} {math.ceil(height)}"}
    size.update({"width": math.ceil(width), "height": math.ceil(height), "role": "img", "font_family": FONT})
    ground = element("rect", {"width": "100%", "height": "100%", "fill": WHITE})
    return element("svg", size, "\n".join(["", title(name), ground, *body, ""])) + "\n"


def decimal(value, places, up=False, plain=False):
    """A number rounded down, or up, to so many decimals: all of them where it is to be plain, and else without zeros at the end
    and with commas between thousands."""
    scaled = math.ceil(value * 10**places) if up else math.floor(value * 10**places)
    whole, decimals = divmod(abs(scaled), 10**places)
    sign = "-" if scaled < 0 else ""
    if plain:
        return f"{sign}{whole}.{decimals:0{places}d}"
    return sign + f"{whole:,}.{decimals:0{places}d}".rstrip("0").rstrip(".")
