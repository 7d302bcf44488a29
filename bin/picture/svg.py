"""A scene as an SVG picture without script."""
from html import escape

from .lanes import NOBODY
from .links import LINKS
from .saying import says
from .scene import label_of, runner_words, short_of, stretches, style_of, words_of
from .story import MARKS
from .styles import EDGE, FAINT, FAINT_WORDS, GROUP_COLOURS, LINE, LINK_LOOKS, LOAD, MARK_COLOURS, PATTERN_LINES, STATES, tint_of

GUTTER = 118
WIDTH = 960
GREATEST_COLUMN = 88
# below this width of a column arrows would lie on one another
LEAST_COLUMN_WITH_LINKS = 5
TOP = 54
STRIP, BAR, BAND, GAP = 20, 22, 22, 12
LETTER_WIDTH, BOLD_WIDTH = 6.2, 7

HEAD = """<svg xmlns="http://www.w3.org/2000/svg" width="%(width)s" height="%(height)s" \
viewBox="0 0 %(width)s %(height)s" font-family="sans-serif" font-size="11">
<title>%(title)s</title>
<rect width="100%%" height="100%%" fill="#FFFFFF"/>
<defs>
%(patterns)s
%(heads)s
</defs>
"""


def number(value):
    """A length, with at most two decimals."""
    return ("%.2f" % value).rstrip("0").rstrip(".")


def tag(name, content="", **attributes):
    """An element; the underscores of attributes' names stand for hyphens."""
    words = "".join(
        ' %s="%s"' % (key.replace("_", "-"), escape(value) if isinstance(value, str) else number(value))
        for key, value in attributes.items()
    )
    return "<%s%s>%s</%s>" % (name, words, content, name) if content else "<%s%s/>" % (name, words)


def text(x, y, words, **attributes):
    """Words at a point."""
    return tag("text", escape(words), x=x, y=y, **attributes)


def titled(title, *content):
    """Elements that a reader's pointer is told the title of."""
    return tag("g", tag("title", escape(title)) + "".join(content))


def fill_of(style):
    """The fill of a state: its colour, or its pattern."""
    return "url(#%s)" % style if STATES[style].lines else STATES[style].fill


def patterns(names):
    """The patterns of those of the named states that have one."""
    for name, style in STATES.items():
        if name in names and style.lines:
            path = "".join("M%s %sL%s %s" % tuple(map(number, line)) for line in PATTERN_LINES[style.lines])
            lines = tag("path", d=path, stroke=EDGE, stroke_width=0.7)
            square = tag("rect", width=6, height=6, fill=style.fill) + lines
            yield tag("pattern", square, id=name, width=6, height=6, patternUnits="userSpaceOnUse")


def arrow_heads(kinds):
    """The heads of the arrows."""
    for kind in kinds:
        path = tag("path", d="M0 0L7 3.5L0 7z", fill=LINK_LOOKS[kind][0])
        yield tag("marker", path, id=kind, refX=6, refY=3.5, markerWidth=7, markerHeight=7, orient="auto", markerUnits="userSpaceOnUse")


def glyph(x, y, mark):
    """The circle of a mark round a point, and its letter."""
    fill, ink = MARK_COLOURS[mark]
    edge = ink if fill == "#FFFFFF" else "#000000"
    letter = {"fill": ink, "font_size": "10", "font_weight": "bold", "text_anchor": "middle"}
    yield tag("circle", cx=x, cy=y, r=7, fill=fill, stroke=edge)
    yield text(x, y + 3.5, MARKS[mark][0], **letter)


class Drawing:
    """The elements of a picture, drawn from the top down."""

    def __init__(self, scene, axis):
        self.scene, self.axis = scene, axis
        span = axis.high - axis.low
        self.scale = min(WIDTH / span, GREATEST_COLUMN)
        self.width = GUTTER + span * self.scale + 16
        self.tints = {row.number: tint_of(order) for order, row in enumerate(scene.threads)}
        self.used = {style_of(place) for row in scene.threads for place in row.pieces}
        self.greatest = max((max(row.pieces) for row in scene.loads), default=0)
        self.links = scene.links if self.scale >= LEAST_COLUMN_WITH_LINKS else []
        self.elements, self.y = [], TOP
        self.strips, self.lanes = {}, {}

    def x(self, coordinate):
        """Where a coordinate stands in the picture."""
        return GUTTER + (self.axis.at(coordinate) - self.axis.low) * self.scale

    def add(self, *elements):
        """Elements are drawn over those before."""
        self.elements.extend(elements)

    def ruler(self):
        """The name of the picture, and the numbers along the axis."""
        scene = self.scene
        self.add(text(8, 16, scene.name, font_weight="bold", font_size="12"))
        self.add(text(8, TOP - 18, self.axis.name, fill=LINE))
        taken = GUTTER - 1
        for coordinate in range(scene.first, scene.last + 1):
            words = self.axis.words(coordinate)
            if self.x(coordinate) > taken:
                taken = self.x(coordinate) + (len(words) + 1) * LETTER_WIDTH
                self.add(text(self.x(coordinate) + 2, TOP - 18, words, fill=LINE))
                self.add(tag("path", d="M%s %sV%s" % (number(self.x(coordinate)), TOP - 28, TOP - 15), stroke=EDGE))

    def name(self, words, y, **attributes):
        """The name of a lane, or of a part of it, left of it."""
        self.add(text(8, y, words, **attributes))

    def piece(self, begin, end, fill, words, title, offset=0):
        """One piece of a lane, with its words where they have room behind an offset."""
        x, width = self.x(begin), self.x(end) - self.x(begin)
        if width <= 0:
            return
        edge = FAINT if fill == "none" else EDGE
        parts = [tag("rect", x=x, y=self.y, width=width, height=BAR, fill=fill, stroke=edge, stroke_width=0.7)]
        if words and len(words) * LETTER_WIDTH + 8 + offset <= width:
            ground = {"width": len(words) * LETTER_WIDTH + 4, "height": BAR - 8, "fill": "#FFFFFF"}
            parts.append(tag("rect", x=x + 3 + offset, y=self.y + 4, **ground, fill_opacity=0.75))
            parts.append(text(x + 5 + offset, self.y + 15, words))
        self.add(titled(title, *parts))

    def mark(self, coordinate, mark, y):
        """A mark at an entry."""
        self.add(titled("%s: %s" % (mark, MARKS[mark][1]), *glyph(self.x(coordinate) + 8, y, mark)))

    def strip(self, worker):
        """The entries of a worker, each with its word or its mark."""
        self.name("worker %d" % worker, self.y + 12, fill=LINE, font_size="10")
        self.strips[worker] = self.y
        begins = [n for n, entry, _ in self.scene.numbered() if entry.worker == worker]
        ends = [*begins[1:], self.scene.last + 1]
        for begin, end in zip(begins, ends):
            at = begin - self.scene.first
            entry, mark = self.scene.entries[at], self.scene.marks[at]
            x, offset, words = self.x(begin), 14 if mark else 0, entry.event[0]
            line, ink = (FAINT, FAINT_WORDS) if entry.reply[0] == "unmarked" else (LINE, LINE)
            parts = [tag("path", d="M%s %sv%s" % (number(x), number(self.y + 2), STRIP - 2), stroke=line)]
            if x + offset + len(words) * LETTER_WIDTH + 4 <= self.x(end):
                parts.append(text(x + 3 + offset, self.y + 12, words, font_size="10", fill=ink))
            self.add(titled("%s\n%s" % (entry.line, says(entry)), *parts))
            if mark:
                self.mark(begin, mark, self.y + 8)
        self.y += STRIP

    def bars(self, cpu, top, height):
        """The bars of the groups that have a CPU, left of its lane, the outermost leftmost."""
        for group in self.scene.groups:
            if cpu in group.cpus:
                at = group.depth - 1
                self.add(titled(group.says(), tag("rect", x=2 * at, y=top, width=1.5, height=height, fill=GROUP_COLOURS[at])))

    def runs(self, row):
        """What a CPU runs."""
        self.name("CPU %d" % row.number, self.y + 15, font_weight="bold")
        for begin, end, thread in stretches(row, self.scene):
            if thread >= 0:
                self.piece(begin, end, self.tints[thread], "thread %d" % thread, runner_words(thread))
            elif thread == NOBODY:
                self.piece(begin, end, "none", "", runner_words(thread))
        self.y += BAR

    def band(self, row):
        """The load of a CPU, as a band whose height is the greatest load of all."""
        self.name("load", self.y + 14, fill=LINE, font_size="10")
        for begin, end, load in stretches(row, self.scene):
            x, width = self.x(begin), self.x(end) - self.x(begin)
            height = (BAND - 4) * load / max(self.greatest, 1)
            top = self.y + BAND - height
            parts = [tag("rect", x=x, y=top, width=width, height=height, fill=LOAD, fill_opacity=0.25)]
            parts.append(tag("path", d="M%s %sh%s" % tuple(map(number, (x, top, width))), stroke=LOAD))
            if width >= 14:
                parts.append(text(x + 4, self.y + BAND - 4, str(load), font_size="10"))
            if width > 0:
                self.add(titled("load %d" % load, *parts))
        self.y += BAND + GAP

    def thread(self, row):
        """The places of a thread, with the marks of the entries that are about it."""
        name = "thread %d" % row.number
        self.name(name, self.y + 15, font_weight="bold")
        self.add(text(14 + len(name) * BOLD_WIDTH, self.y + 15, label_of(row), fill=LINE, font_size="10"))
        self.lanes[row.number] = self.y
        marks = self.scene.marked[row.number]
        for begin, end, place in stretches(row, self.scene):
            if place.state is not None:
                fill = self.tints[row.number] if place.state == "running" else fill_of(style_of(place))
                self.piece(begin, end, fill, short_of(place), words_of(place), 15 if begin in marks else 0)
        for coordinate in marks:
            self.mark(coordinate, self.scene.marks[coordinate - self.scene.first], self.y + BAR / 2)
        self.y += BAR + 6

    def arrows(self):
        """The links, from the strip of an entry to that of another one, or to the lane of the woken thread."""
        for link in self.links:
            first, last = (self.scene.entries[at - self.scene.first] for at in (link.begin, link.end))
            x, y = self.x(link.begin) + 8, self.strips[first.worker] + (STRIP if link.kind == "wake" else 1)
            if link.kind == "wake":
                to_x, to_y = self.x(link.end) + 2, self.lanes[link.thread]
            else:
                to_x, to_y = self.x(link.end) + 8, self.strips[last.worker] + 1
            high = min(y, to_y) - 14 if link.kind == "switch" else (y + to_y) / 2
            path = "M%s %sC%s %s %s %s %s %s" % tuple(map(number, (x, y, x, high, to_x, high, to_x, to_y)))
            colour, dashes = LINK_LOOKS[link.kind]
            look = {"stroke": colour, "stroke_dasharray": dashes, "stroke_width": 1.3, "fill": "none"}
            title = "%s: entry %d to entry %d" % (LINKS[link.kind], link.begin, link.end)
            self.add(titled(title, tag("path", d=path, **look, marker_end="url(#%s)" % link.kind)))

    def folds(self):
        """A gap in the lanes at each time that was folded, with what it is long."""
        for fold in self.axis.folds:
            middle = GUTTER + (self.axis.place(fold.end) - fold.width / 2 - self.axis.low) * self.scale
            for x in (middle - 3, middle + 3):
                self.add(tag("path", d="M%s %sV%s" % (number(x), TOP - 14, number(self.y)), stroke=EDGE, stroke_dasharray="2 2"))
            self.add(tag("rect", x=middle - 3, y=TOP - 14, width=6, height=self.y - TOP + 14, fill="#FFFFFF"))
            words = "%d hz ticks" % (fold.end - fold.begin)
            self.add(text(middle, TOP - 4, words, fill=LINE, font_size="10", text_anchor="middle"))

    def legend(self):
        """The styles, the marks and the arrows that the picture has."""
        x = self.legend_line([(self.swatch(name), STATES[name].says) for name in STATES if name in self.used], 8)
        marks = [(self.letter(name), name) for name in MARKS if name in self.scene.marks]
        if x + sum(len(name) * LETTER_WIDTH + 32 for _, name in marks) > self.width:
            self.y, x = self.y + 20, 8
        x = self.legend_line(marks, x)
        used = {link.kind for link in self.links}
        self.legend_line([(self.arrow(kind), says) for kind, says in LINKS.items() if kind in used], x)
        self.y += 24

    def legend_line(self, parts, x):
        """Drawings with their words, one behind another from x on; where the next would stand."""
        for draw, words in parts:
            width = len(words) * LETTER_WIDTH + 32
            if x > 8 and x + width > self.width:
                self.y, x = self.y + 20, 8
            draw(x, self.y)
            self.add(text(x + 20, self.y + 11, words, fill=LINE))
            x += width
        return x

    def swatch(self, name):
        """A drawing of a state for the legend."""
        return lambda x, y: self.add(
            tag("rect", x=x, y=y, width=16, height=14, fill=fill_of(name), stroke=EDGE, stroke_width=0.7)
        )

    def arrow(self, kind):
        """A drawing of an arrow for the legend."""
        colour, dashes = LINK_LOOKS[kind]
        look = {"stroke": colour, "stroke_dasharray": dashes, "stroke_width": 1.3, "marker_end": "url(#%s)" % kind}
        return lambda x, y: self.add(tag("path", d="M%s %sh15" % (number(x), number(y + 7)), **look))

    def letter(self, name):
        """A drawing of a mark for the legend."""
        return lambda x, y: self.add(*glyph(x + 9, y + 7, name))


def svg_text(scene, axis):
    """The SVG of a scene."""
    drawing = Drawing(scene, axis)
    drawing.ruler()
    for row, load in zip(scene.cpus, scene.loads):
        top = drawing.y
        drawing.strip(row.number)
        drawing.runs(row)
        drawing.band(load)
        drawing.bars(row.number, top, drawing.y - top - GAP)
    for row in scene.threads:
        drawing.thread(row)
    drawing.folds()
    drawing.arrows()
    drawing.y += 8
    drawing.legend()
    head = HEAD % {
        "width": number(drawing.width),
        "height": number(drawing.y),
        "title": escape("%s: entries %d to %d of %d" % (scene.name, scene.first, scene.last, scene.count)),
        "patterns": "\n".join(patterns(drawing.used)),
        "heads": "\n".join(arrow_heads(sorted({link.kind for link in drawing.links}))),
    }
    body = head + "\n".join(drawing.elements) + "\n</svg>\n"
    return body.encode("ascii", "xmlcharrefreplace").decode("ascii")
