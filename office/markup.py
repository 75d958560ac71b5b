"""Elements of a page: what is written is XML that a browser reads as HTML, and every name in it is escaped."""
import re
import xml.etree.ElementTree as ElementTree

UNPRINTABLE = re.compile("[^\t\n\r -\ud7ff\ue000-\ufffd\U00010000-\U0010ffff]")
INLINE = ("a", "b", "span", "tspan", "small")


def element(tag, attributes, *content):
    """An element of texts and other elements. It must not be empty where HTML knows no empty element of that name."""
    made = ElementTree.Element(tag, {name: printable(str(value)) for name, value in attributes.items()})
    last = None
    for part in content:
        if not isinstance(part, str):
            made.append(part)
            last = part
        elif last is None:
            made.text = (made.text or "") + printable(part)
        else:
            last.tail = (last.tail or "") + printable(part)
    if tag not in INLINE:
        made.tail = "\n"
    return made


def printable(text):
    """A text without the characters that XML cannot hold."""
    return UNPRINTABLE.sub("\ufffd", text)


def document(title, style, *body):
    """A whole page. Its style must do without the characters < > and &."""
    head = element(
        "head",
        {},
        element("meta", {"charset": "utf-8"}),
        element("meta", {"name": "viewport", "content": "width=device-width, initial-scale=1"}),
        element("title", {}, title),
        element("style", {}, style),
    )
    whole = element("html", {"lang": "en"}, head, element("body", {}, *body))
    return "<!DOCTYPE html>\n" + ElementTree.tostring(whole, encoding="unicode")
