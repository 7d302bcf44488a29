"""A scene as one page of HTML that needs nothing else."""
import json
import os
from html import escape

from .links import LINKS
from .saying import EVENT_SAYS, REPLY_SAYS
from .scene import folds_of, label_of, short_of, style_of, words_of
from .story import MARKS
from .styles import EDGE, FAINT, FAINT_WORDS, GROUP_COLOURS, LINE, LINK_LOOKS, LOAD, MARK_COLOURS, PATTERN_LINES, RUNNING_TINTS, STATES
from .svg import patterns, tag
from .waits import waits_of

PARTS = os.path.join(os.path.dirname(os.path.abspath(__file__)), "page")
SCRIPTS = ("data.js", "draw.js", "links.js", "lanes.js", "use.js", "print.js")
WAITS_HEAD = ("thread", "class, nice", "queue", "stays", "hz ticks in all", "longest stay", "its entries")


def page_text(scene, axis):
    """The page of a scene, which begins on an axis."""
    parts = {
        "title": escape(scene.name),
        "about": escape(about(scene)),
        "legend": legend(),
        "waits": waits_table(scene),
        "style": part("page.css"),
        "data": data_text(scene, axis),
        "script": "\n".join(part(name) for name in SCRIPTS),
    }
    pieces = part("page.html").split("@@")
    body = "".join(parts[piece] if at % 2 else piece for at, piece in enumerate(pieces))
    return body.encode("ascii", "xmlcharrefreplace").decode("ascii")


def part(name):
    """The text of a file of the page."""
    with open(os.path.join(PARTS, name), encoding="ascii") as source:
        return source.read()


def about(scene):
    """What is drawn, in a line."""
    window = "%d entries" % scene.count
    if (scene.first, scene.last) != (1, scene.count):
        window = "entries %d to %d of %d" % (scene.first, scene.last, scene.count)
    groups = "".join("; " + group.says() for group in scene.groups)
    return "%s, CPUs: %d, threads: %d%s" % (window, len(scene.cpus), len(scene.threads), groups)


def legend():
    """The states and the marks with what they say."""
    states = "".join(state(name, style) for name, style in STATES.items())
    marks = "".join(mark(name, *MARKS[name]) for name in MARKS)
    links = "".join(link(name, says) for name, says in LINKS.items())
    shared = "<svg width='0' height='0' aria-hidden='true'><defs>%s</defs></svg>" % "".join(patterns(STATES))
    return shared + states + marks + links


def state(name, style):
    """One state of the legend."""
    fill = "url(#%s)" % name if style.lines else style.fill
    square = tag("rect", x=0.5, y=0.5, width=17, height=13, fill=fill, stroke=EDGE)
    drawing = "<svg width='18' height='14' aria-hidden='true'>%s</svg>" % square
    return "<span>%s %s</span>" % (drawing, escape(style.says))


def mark(name, letter, says):
    """One mark of the legend."""
    fill, ink = MARK_COLOURS[name]
    circle = "<b class='mark' style='background:%s;color:%s'>%s</b>" % (fill, ink, letter)
    return "<span title='%s'>%s %s</span>" % (escape(says), circle, escape(name))


def link(name, says):
    """One kind of arrow of the legend."""
    colour, dashes = LINK_LOOKS[name]
    line = tag("path", d="M1 7H17m-5 -4l5 4l-5 4", stroke=colour, stroke_dasharray=dashes, fill="none", stroke_width=1.5)
    return "<span><svg width='20' height='14' aria-hidden='true'>%s</svg> %s</span>" % (line, escape(says))


def waits_table(scene):
    """The rows of the table of waits."""
    labels = {row.number: label_of(row) for row in scene.threads}
    head = "".join("<th>%s</th>" % words for words in WAITS_HEAD)
    rows = ["<tr>%s</tr>" % head]
    for wait in waits_of(scene):
        begin = "the start" if wait.begin < scene.first else wait.begin
        entries = "%s to %s" % (begin, wait.end if wait.end <= scene.last else "the end")
        cells = (wait.thread, labels[wait.thread], wait.queue, wait.stays, wait.total, wait.longest, entries)
        rows.append("<tr>%s</tr>" % "".join("<td>%s</td>" % escape(str(cell)) for cell in cells))
    return "\n".join(rows)


def data_text(scene, axis):
    """What the script of the page draws, as JSON that can stand in a page."""
    text = json.dumps(data_of(scene, axis), separators=(",", ":"))
    return text.replace("&", "\\u0026").replace("<", "\\u003c").replace(">", "\\u003e")


def data_of(scene, axis):
    """What the script of the page draws."""
    base = min(scene.times())
    places = {}
    threads = [thread_row(row, scene, places) for row in scene.threads]
    names = {name: at for at, name in enumerate(MARKS)}
    return {
        "first": scene.first,
        "last": scene.last,
        "axis": "ticks" if axis.name == "hz tick" else "entries",
        "base": str(base),
        "end": None if scene.now is None else scene.now - base,
        "times": [entry.now - base for entry in scene.entries],
        "workers": [entry.worker for entry in scene.entries],
        "marks": [names.get(mark, -1) for mark in scene.marks],
        "lines": [entry.line for entry in scene.entries],
        "cpus": [cpu_row(row, load, scene.groups) for row, load in zip(scene.cpus, scene.loads)],
        "threads": threads,
        "places": [[style_of(place) or "", short_of(place), words_of(place)] for place in places],
        "links": scene.links,
        "folds": [[fold.begin - base, fold.end - base, fold.width] for fold in folds_of(scene)],
        "says": [EVENT_SAYS, REPLY_SAYS],
        "looks": looks(),
    }


def cpu_row(row, load, groups):
    """A CPU, with its current threads, its loads, and how deep the groups lie that have it."""
    return {
        "number": row.number,
        "starts": row.starts,
        "pieces": row.pieces,
        "loadStarts": load.starts,
        "loads": load.pieces,
        "groups": [group.depth for group in groups if row.number in group.cpus],
        "final": row.final,
    }


def thread_row(row, scene, places):
    """A thread, with its places as numbers of the list of places, which grows by what is new."""
    return {
        "number": row.number,
        "starts": row.starts,
        "pieces": [places.setdefault(place, len(places)) for place in row.pieces],
        "marked": scene.marked[row.number],
        "label": label_of(row),
        "final": row.final,
    }


def looks():
    """The colours, patterns and letters."""
    return {
        "states": {name: [style.fill, style.lines] for name, style in STATES.items()},
        "tints": RUNNING_TINTS,
        "marks": [[name, letter, *MARK_COLOURS[name], says] for name, (letter, says) in MARKS.items()],
        "load": LOAD,
        "groups": GROUP_COLOURS,
        "line": LINE,
        "edge": EDGE,
        "faint": FAINT,
        "faintWords": FAINT_WORDS,
        "lines": PATTERN_LINES,
        "links": LINK_LOOKS,
    }
