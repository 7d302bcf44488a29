"""A weave as an SVG picture without script, and as a page that has it."""
from html import escape

from .scene import short_of, style_of, words_of
from .styles import EDGE, FAINT_WORDS, LINE, STATES, STEP_LOOKS, WRONG_WORD, tint_of
from .svg import BAR, LETTER_WIDTH, fill_of, number, patterns, tag, text, titled

GUTTER, TOP, GAP, ROW = 118, 40, 12, 18
COLUMN, LEAST_COLUMN, GREATEST_WIDTH = 76, 6, 60_000

# what the edge of a wrong word says in the legend
FRAMED = "a lost turn, a blocked read, or a word that is still to be changed"

HEAD = """<svg xmlns="http://www.w3.org/2000/svg" width="%(width)s" height="%(height)s" \
viewBox="0 0 %(width)s %(height)s" font-family="sans-serif" font-size="11">
<title>%(title)s</title>
<rect width="100%%" height="100%%" fill="#FFFFFF"/>
<defs>
%(patterns)s
</defs>
"""

PAGE = """<!DOCTYPE html>
<html lang="en"><head><meta charset="ascii"><title>%(title)s</title>
<style>body { margin: 0; font-family: sans-serif } div { overflow-x: auto }</style></head>
<body><div>
%(picture)s</div></body></html>
"""


def lock_name(lock):
    """A lock in words."""
    if lock < 16:
        return "queue %d" % lock
    return "limbo" if lock == 24 else "chain %d" % (lock - 16)


def word_name(word):
    """What a thread's word says, in words."""
    return "blocked" if word is None else lock_name(word)


def lock_over(place):
    """The lock over a place, or none for a thread in hand."""
    if place.state in ("running", "queued"):
        return place.where
    if place.state == "asleep":
        return 16 + place.where % 8
    return 24 if place.state in ("unborn", "gone") else None


def step_words(turn):
    """What a turn came to, shortly."""
    words = turn.outcome
    if turn.kind == "commit":
        return "commit %s" % words[2]
    if turn.kind in ("blocked", "finished"):
        return turn.kind
    return " ".join(words[:3] if turn.kind == "lost" else words[1:])


def stretches_of(values, first):
    """The stretches of turns with one value: the first turn, the one behind the last, and the value."""
    begin = 0
    for at in range(1, len(values) + 1):
        if at == len(values) or values[at] != values[begin]:
            yield first + begin, first + at, values[begin]
            begin = at


class Drawing:
    """The elements of the picture of some turns, drawn from the top down."""

    def __init__(self, name, turns, first):
        self.name, self.turns, self.first = name, turns, first
        self.last = first + len(turns) - 1
        self.scale = max(LEAST_COLUMN, min(COLUMN, GREATEST_WIDTH // max(1, len(turns))))
        self.width = GUTTER + len(turns) * self.scale + 16
        self.workers = sorted({turn.worker for turn in turns} | {w for turn in turns for w in turn.holders.values()})
        self.tints = {worker: tint_of(order) for order, worker in enumerate(self.workers)}
        self.locks = sorted({lock for turn in turns for lock in turn.holders})
        self.threads = sorted({thread for turn in turns for thread in turn.words})
        self.used = {style_of(place) for turn in turns for place in turn.places.values()} - {None}
        self.elements, self.y = [], TOP

    def x(self, turn):
        """Where the column of a turn begins."""
        return GUTTER + (turn - self.first) * self.scale

    def label(self, words, **attributes):
        """The name of a lane, left of it."""
        self.elements.append(text(8, self.y + 13, words, **attributes))

    def piece(self, begin, end, fill, words, title, edge=EDGE, ink="#000000"):
        """A box over the columns of some turns, with its words where they have room."""
        x, width = self.x(begin), self.x(end) - self.x(begin)
        parts = [tag("rect", x=x, y=self.y, width=width, height=ROW, fill=fill, stroke=edge, stroke_width=0.7)]
        if len(words) * LETTER_WIDTH + 6 <= width:
            parts.append(text(x + 3, self.y + 13, words, font_size="10", fill=ink))
        self.elements.append(titled(title, *parts))

    def ruler(self):
        """The name of the picture, and the numbers of the turns."""
        self.elements.append(text(8, 16, self.name, font_weight="bold", font_size="12"))
        self.elements.append(text(8, TOP - 8, "turn", fill=LINE))
        step = max(1, -(-28 // self.scale))
        for turn in range(self.first, self.last + 1, step):
            self.elements.append(text(self.x(turn) + 2, TOP - 8, str(turn), fill=LINE))

    def worker(self, worker):
        """The steps of a worker, and the turns that were none."""
        self.label("worker %d" % worker, font_weight="bold")
        for turn, at in zip(self.turns, range(self.first, self.last + 1)):
            if turn.worker == worker:
                fill, edge = STEP_LOOKS[turn.kind]
                ink = FAINT_WORDS if turn.kind == "finished" else "#000000"
                self.piece(at, at + 1, fill, step_words(turn), "turn %d: %s" % (at, " ".join(turn.outcome)), edge, ink)
        self.y += ROW + 4

    def lock(self, lock):
        """Who holds a lock, behind each turn."""
        self.label("lock %d, %s" % (lock, lock_name(lock)))
        for begin, end, holder in stretches_of([turn.holders.get(lock) for turn in self.turns], self.first):
            if holder is not None:
                words = "worker %d" % holder
                self.piece(begin, end, self.tints[holder], words, "lock %d is held by %s" % (lock, words))
        self.y += ROW + 4

    def thread(self, thread):
        """The word of a thread and its place, behind each turn; a word that isn't its place's is framed."""
        self.label("thread %d, word" % thread, font_weight="bold")
        told = [(turn.words[thread], turn.words[thread] != lock_over(turn.places[thread])) for turn in self.turns]
        for begin, end, (word, waits) in stretches_of(told, self.first):
            fill = STATES["hand"].fill if word is None else "#FFFFFF"
            title = "the word of thread %d: %s" % (thread, word_name(word))
            if waits:
                title += "; the change of it is still to be stored"
            self.piece(begin, end, fill, word_name(word), title, WRONG_WORD if waits else EDGE)
        self.y += ROW
        self.label("place", fill=LINE, font_size="10")
        for begin, end, place in stretches_of([turn.places[thread] for turn in self.turns], self.first):
            self.piece(begin, end, fill_of(style_of(place)), short_of(place), words_of(place))
        self.y += ROW + 6

    def legend(self):
        """The states of the places that there are, and what is framed."""
        x = 8
        shown = [(fill_of(name), EDGE, STATES[name].says) for name in STATES if name in self.used]
        for fill, edge, words in [*shown, ("#FFFFFF", WRONG_WORD, FRAMED)]:
            self.elements.append(tag("rect", x=x, y=self.y, width=16, height=14, fill=fill, stroke=edge, stroke_width=0.7))
            self.elements.append(text(x + 20, self.y + 11, words, fill=LINE))
            x += len(words) * LETTER_WIDTH + 32
        self.width = max(self.width, x + 16)
        self.y += 24


def weave_svg(weave, name, first, last):
    """The SVG of the turns `first` to `last` of a weave."""
    drawing = Drawing(name, weave.turns[first - 1 : last], first)
    drawing.ruler()
    for worker in drawing.workers:
        drawing.worker(worker)
    drawing.y += GAP
    for lock in drawing.locks:
        drawing.lock(lock)
    drawing.y += GAP
    for thread in drawing.threads:
        drawing.thread(thread)
    drawing.y += GAP
    drawing.legend()
    head = HEAD % {
        "width": number(drawing.width),
        "height": number(drawing.y),
        "title": escape("%s: turns %d to %d of %d" % (name, first, last, len(weave.turns))),
        "patterns": "\n".join(patterns(drawing.used)),
    }
    body = head + "\n".join(drawing.elements) + "\n</svg>\n"
    return body.encode("ascii", "xmlcharrefreplace").decode("ascii")


def weave_page(weave, name, first, last):
    """A page of HTML with the SVG of the turns `first` to `last` of a weave, which can be scrolled."""
    page = PAGE % {"title": escape(name), "picture": weave_svg(weave, name, first, last)}
    return page.encode("ascii", "xmlcharrefreplace").decode("ascii")
