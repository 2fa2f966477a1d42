"""Shapes and words of an SVG picture, and room for its labels."""
import re

LETTER = 0.62   # the width of a letter beside its height, near enough for a label's room


def legal(text):
    """Text without what XML can't hold."""
    return re.sub("[^\t\n\r\u0020-\ud7ff\ue000-\ufffd\U00010000-\U0010ffff]", "\ufffd", str(text))


def escape(text):
    return text.replace("&", "&amp;").replace("<", "&lt;").replace(">", "&gt;")


def quoteattr(value):
    return '"%s"' % escape(str(value)).replace('"', "&quot;").replace("\n", "&#10;").replace("\t", "&#9;").replace("\r", "&#13;")


class Canvas:
    """An SVG picture as it grows."""

    def __init__(self, width, height, title):
        self.width, self.height, self.parts, self.boxes, self.lines = width, height, [], [], []
        self.title = title

    def add(self, name, text=None, **attributes):
        words = "".join(" %s=%s" % (k.rstrip("_").replace("_", "-"), quoteattr(legal(round(v, 2) if isinstance(v, float) else v)))
                        for k, v in attributes.items() if v is not None)
        self.parts.append("<%s%s/>" % (name, words) if text is None else "<%s%s>%s</%s>" % (name, words, escape(legal(text)), name))

    def line(self, x1, y1, x2, y2, class_, **more):
        self.add("line", x1=float(x1), y1=float(y1), x2=float(x2), y2=float(y2), class_=class_, **more)

    def path(self, points, class_, closed=False, **more):
        self.add("path", d="M" + " L".join("%.2f %.2f" % p for p in points) + (" Z" if closed else ""), class_=class_, **more)

    def text(self, x, y, words, class_="text", anchor=None, **more):
        self.add("text", words, x=float(x), y=float(y), class_=class_, text_anchor=anchor, **more)

    def open(self, class_, title=None, **more):
        words = "".join(" %s=%s" % (k.replace("_", "-"), quoteattr(legal(v))) for k, v in more.items() if v is not None)
        self.parts.append("<g class=%s%s>%s" % (quoteattr(class_), words, "<title>%s</title>" % escape(legal(title)) if title else ""))

    def close(self):
        self.parts.append("</g>")

    def taken(self, x, y, width, height):
        """Keeps a box free of labels."""
        self.boxes.append((x, y, x + width, y + height))

    def crossed(self, x1, y1, x2, y2):
        """A line across or down that a label had better not stand on."""
        self.lines.append((min(x1, x2) - 1, min(y1, y2) - 1, max(x1, x2) + 1, max(y1, y2) + 1))

    def is_free(self, box, boxes):
        return not any(box[0] < b[2] and b[0] < box[2] and box[1] < b[3] and b[1] < box[3] for b in boxes)

    def label(self, places, words, size=11, class_="label", limits=None):
        """Words at the best of the places (x, y, anchor) where there is room, the first ones first; standing on a line counts as some places
        farther. Nothing where there is no room."""
        width, found = LETTER * size * len(words), []
        for k, (x, y, anchor) in enumerate(places):
            left = x - {"start": 0, "middle": width / 2, "end": width}[anchor]
            box = (left - 1, y - size * 0.82, left + width + 1, y + size * 0.22)
            inside = limits is None or limits[0] <= box[0] and limits[1] <= box[1] and box[2] <= limits[2] and box[3] <= limits[3]
            if inside and self.is_free(box, self.boxes):
                found.append((k if self.is_free(box, self.lines) else k + 6, x, y, anchor, box))
        if not found:
            return False
        _, x, y, anchor, box = min(found)
        self.boxes.append(box)
        self.text(x, y, words, class_=class_, anchor=anchor, font_size=size)
        return True

    def whole(self, style):
        return ('<?xml version="1.0" encoding="UTF-8"?>\n<svg xmlns="http://www.w3.org/2000/svg" viewBox="0 0 %d %d" width="%d" height="%d" role="img">\n'
                "<title>%s</title>\n<style>%s</style>\n%s\n</svg>\n" % (self.width, self.height, self.width, self.height,
                                                                       escape(legal(self.title)), style, "\n".join(self.parts)))


def spread(wanted, gap, low, high):
    """Places in rising order near those wanted, no two nearer than the gap; as many as there is room for between low and high."""
    found = []
    for y in wanted:
        found.append(max(y, found[-1] + gap if found else low))
    for i in reversed(range(len(found))):
        found[i] = min(found[i], high - gap * (len(found) - 1 - i))
    return found


def ticks(low, high, most):
    """Round numbers from low to high, at most so many."""
    step = 1
    while (high - low) // step + 1 > most:
        step = step * 2 if str(step)[0] in "15" else step * 5 // 2
    return list(range(-(-low // step) * step, high + 1, step))
