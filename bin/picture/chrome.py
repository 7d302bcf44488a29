"""A scene as JSON of the Chrome trace event format.

One process has a track for each worker, on which each entry is a slice; one a track for each CPU and its
counter of the load; and one a track for each thread and its counter of the priority, as far as it is told.
Links are flows from the slice of one entry to that of another one, or to the woken thread.
"""
import json
from collections import Counter
from itertools import chain

from .saying import says
from .scene import label_of, stretches, words_of
from .story import told_priority

CPUS, THREADS, WORKERS = 1, 2, 3
MICROSECONDS_PER_HZ_TICK = 1000


def chrome_text(scene, axis):
    """The JSON of a scene. A coordinate of the axis of entries is a microsecond, an hz tick a millisecond."""
    unit = MICROSECONDS_PER_HZ_TICK if axis.name == "hz tick" else 1

    def at(coordinate):
        return (axis.at(coordinate) - axis.low) * unit

    stays = stays_of(scene, at, unit)
    spell = json.JSONEncoder(separators=(",", ":")).encode
    lanes = chain(names(scene), runs(scene, at), loads(scene, at), places(scene, at), priorities(scene, at))
    events = chain(lanes, entries(scene, stays), flows(scene, stays))
    head = {"displayTimeUnit": "ms", "otherData": other(scene, axis)}
    return '%s,"traceEvents":[\n%s\n]}\n' % (spell(head)[:-1], ",\n".join(map(spell, events)))


def other(scene, axis):
    """What the whole trace is, and where its time begins."""
    return {
        "name": scene.name,
        "entries": "%d to %d of %d" % (scene.first, scene.last, scene.count),
        "axis": axis.name,
        "begin": str(axis.low),
    }


def stays_of(scene, at, unit):
    """Where the slice of each entry begins and how long it is: a microsecond, or less where many share a time."""
    here = [at(number) for number, _, _ in scene.numbered()]
    many, before, stays = Counter(here), Counter(), {}
    for number, begin in zip(range(scene.first, scene.last + 1), here):
        length = min(1, unit / many[begin])
        stays[number] = (begin + before[begin] * length, length)
        before[begin] += 1
    return stays


def track(process, number):
    """The process and thread number of a lane, which no other lane has."""
    return {"pid": process, "tid": process * 1000 + number}


def names(scene):
    """The names of the processes and tracks, and their order."""
    for process, name, order in ((WORKERS, "workers", 1), (CPUS, "CPUs", 2), (THREADS, "threads", 3)):
        yield about("process_name", {"pid": process}, name=name)
        yield about("process_sort_index", {"pid": process}, sort_index=order)
    lanes = [(WORKERS, "worker %d" % row.number, row) for row in scene.cpus]
    lanes += [(CPUS, "CPU %d" % row.number, row) for row in scene.cpus]
    lanes += [(THREADS, ("thread %d %s" % (row.number, label_of(row))).rstrip(), row) for row in scene.threads]
    for process, name, row in lanes:
        lane = track(process, row.number)
        yield about("thread_name", lane, name=name)
        yield about("thread_sort_index", lane, sort_index=row.number)


def about(what, lane, **args):
    """An event that names or orders a track."""
    return {"ph": "M", "name": what, "ts": 0, **lane, "args": args}


def slices(row, scene, at, process, name_of):
    """Events that last, one for each piece of a row that has a name; its entry is the one that began it."""
    lane = track(process, row.number)
    for begin, end, piece in stretches(row, scene):
        name = name_of(piece)
        if name and at(begin) < at(end):
            args = {"since entry": begin} if begin >= scene.first else {}
            yield {"ph": "X", "name": name, "ts": at(begin), "dur": at(end) - at(begin), **lane, "args": args}


def runs(scene, at):
    """The threads that each CPU runs, one after another."""
    for row in scene.cpus:
        yield from slices(row, scene, at, CPUS, lambda thread: "thread %d" % thread if thread >= 0 else "")


def loads(scene, at):
    """The load of each CPU, at each change."""
    for row in scene.loads:
        for begin, end, load in stretches(row, scene):
            if at(begin) < at(end):
                name = "load of CPU %d" % row.number
                yield {"ph": "C", "name": name, "pid": CPUS, "ts": at(begin), "args": {"load": load}}


def places(scene, at):
    """The places of each thread, one after another."""
    for row in scene.threads:
        yield from slices(row, scene, at, THREADS, lambda place: words_of(place) if place.state else "")


def priorities(scene, at):
    """The priority of each thread, where a reply tells it, and at the end where the final line is in the window."""
    for number, entry, _ in scene.numbered():
        thread, priority = told_priority(entry)
        if thread is not None:
            yield counted(thread, priority, at(number))
    for row in scene.threads:
        if row.final and scene.now is not None:
            yield counted(row.number, int(row.final.split(" ")[7]), at(scene.last + 1))


def counted(thread, priority, time):
    """A priority of a thread at a time."""
    name = "priority of thread %d, where told" % thread
    return {"ph": "C", "name": name, "pid": THREADS, "ts": time, "args": {"priority": priority}}


def entries(scene, stays):
    """One slice for each entry, with its line and its words."""
    for number, entry, mark in scene.numbered():
        begin, length = stays[number]
        yield {
            "ph": "X",
            "cat": "entry" if mark is None else "entry,mark",
            "name": entry.event[0] if mark is None else "%s (%s)" % (entry.event[0], mark),
            "ts": begin,
            "dur": length,
            **track(WORKERS, entry.worker),
            "args": {"entry": number, "now": str(entry.now), "line": entry.line, "says": says(entry)},
        }


def flows(scene, stays):
    """The two ends of each link, which have one number: from the entry that it begins with, to where it ends."""
    for number, link in enumerate(scene.links, 1):
        flow = {"cat": "link", "name": link.kind, "id": number}
        begin, end = stays[link.begin][0], stays[link.end][0]
        if begin <= end:
            taker = scene.entries[link.end - scene.first].worker
            lane = track(WORKERS, taker) if link.thread is None else track(THREADS, link.thread)
            yield {"ph": "s", **flow, "ts": begin, **track(WORKERS, scene.entries[link.begin - scene.first].worker)}
            yield {"ph": "f", "bp": "e", **flow, "ts": end, **lane}
