"""Small pieces of SVG."""

from html import escape

# Colours that readers with weak colour vision tell apart.
COLOURS = {"anon": "#a6cee3", "file": "#b2df8a", "frame": "#f4a442", "swapped": "#9e86c8"}
INK = {"anon": "#3d7ea6", "file": "#4d8b2c", "frame": "#8a4b08", "swapped": "#4b3480"}
# How permissions are drawn over the colour: lines in a square of 6 by 6.
STROKES = {
    "rw-": "", "r--": "M0 3H6", "r-x": "M-1 1L1 -1M0 6L6 0M5 7L7 5", "rwx": "M0 6L6 0M0 0L6 6",
    "---": "M1 1H2M4 4H5", "-w-": "M3 0V6", "--x": "M0 0L6 6", "-wx": "M3 0V6M0 0L6 6",
}


def number(value):
    """A coordinate with one digit behind the point where it wants one."""
    text = f"{value:.1f}"
    return text[:-2] if text.endswith(".0") else text


def rect(x, y, width, height, attributes="", title=""):
    inside = f"><title>{escape(title)}</title></rect>" if title else "/>"
    place = f'x="{number(x)}" y="{number(y)}" width="{number(width)}" height="{number(height)}"'
    return f"<rect {place} {attributes}{inside}"


def text(x, y, content, attributes=""):
    return f'<text x="{number(x)}" y="{number(y)}" {attributes}>{escape(content)}</text>'


def path(data, attributes, title=""):
    inside = f"><title>{escape(title)}</title></path>" if title else "/>"
    return f'<path d="{data}" {attributes}{inside}'


def box(x, y, width, height):
    """A rectangle as a part of a path."""
    return f"M{number(x)} {number(y)}h{number(width)}v{number(height)}h{number(-width)}z"


def pattern_name(kind, perm):
    return f"{kind}_{perm.replace('-', '_')}"


def pattern(kind, perm):
    """The fill of pages of a kind with these permissions."""
    ground = rect(0, 0, 6, 6, f'fill="{"#ffffff" if perm == "---" else COLOURS[kind]}"')
    lines = path(STROKES[perm], f'stroke="{INK[kind]}"') if STROKES[perm] else ""
    return (f'<pattern id="{pattern_name(kind, perm)}" width="6" height="6" patternUnits="userSpaceOnUse">'
            f"{ground}{lines}</pattern>")
