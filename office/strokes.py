"""What drawings are made of: lines, words, and the parts of bars."""
from markup import element

BAR = 14  # a bar's height


def place(number):
    return f"{number:.2f}".rstrip("0").rstrip(".")


def line(x1, y1, x2, y2, colour, width, more=None):
    ends = {"x1": place(x1), "y1": place(y1), "x2": place(x2), "y2": place(y2)}
    return element("line", {**ends, "stroke": colour, "stroke-width": width, **(more or {})})


def text(x, y, words, anchor, bold=False):
    """Words with a white rim, so that they stay legible across lines."""
    about = {"x": place(x), "y": place(y), "text-anchor": anchor, "font-size": 17, "stroke": "#fff", "stroke-width": 5}
    weight = {"font-weight": "bold"} if bold else {}
    return element("text", {**about, **weight, "paint-order": "stroke"}, words)


def part(start, end, top, fill, landing):
    """A part of a bar; one of a single minute is a stroke."""
    about = {"class": "landing-part", "data-stop": landing[0], "data-first": landing[1], "data-last": landing[2]}
    box = {"x": place(start), "y": place(top), "width": place(max(end - start, 2)), "height": BAR}
    return element("rect", {**box, "fill": fill, "stroke": "#000", "stroke-width": 1.5, **about})


def stripes(number):
    """The stripes of bars: drawings of one page need names of their own for it."""
    ground = element("rect", {"width": 6, "height": 6, "fill": "#fff"})
    stroke = line(0, 0, 0, 6, "#000", 4)
    size = {"width": 6, "height": 6, "patternUnits": "userSpaceOnUse", "patternTransform": "rotate(45)"}
    return element("defs", {}, element("pattern", {"id": f"late-{number}", **size}, ground, stroke))
