"""A window of a trace as it is drawn: lanes in order, pieces with their words, and two axes."""
from typing import Dict, List, NamedTuple, Optional, Tuple

from .groups import Group
from .lanes import NOBODY, NOT_TOLD
from .links import Link
from .reader import Entry
from .story import story_of


class Row(NamedTuple):
    """One lane in the window: where each piece begins, what it is, and the final line if there is one."""

    number: int
    starts: List[int]
    pieces: List
    final: Optional[str]


class Scene(NamedTuple):
    """What is drawn of the entries `first` to `last`, of `count` that there are.

    Coordinates go from `first - 1`, what stood before the window, to `last + 1`, where it ends. `now` is
    the time at the end of the trace, or none where the window ends before; `span` is the least time of the
    window, and its last one.
    """

    name: str
    first: int
    last: int
    count: int
    now: Optional[int]
    span: Tuple[int, int]
    entries: List[Entry]
    marks: List[Optional[str]]
    cpus: List[Row]
    loads: List[Row]
    threads: List[Row]
    marked: Dict[int, List[int]]
    links: List[Link]
    groups: List[Group]

    def numbered(self):
        """The entries with their numbers and marks."""
        return zip(range(self.first, self.last + 1), self.entries, self.marks)

    def times(self):
        """The times of the entries, and the one at the end where the window has it."""
        return [entry.now for entry in self.entries] + ([] if self.now is None else [self.now])

    def time_at(self, coordinate):
        """The time of a coordinate: the least before the window, and the last one behind it."""
        if self.first <= coordinate <= self.last:
            return self.entries[coordinate - self.first].now
        return self.span[0] if coordinate < self.first else self.span[1]


def scene_of(trace, name, first, last, groups=()):
    """The scene of a window of a trace, with these groups of CPUs."""
    story = story_of(trace)

    def row(number, lane, finals):
        starts, pieces = lane.window(first - 1, last)
        return Row(number, starts, pieces, finals.get(number))

    entries = trace.entries[first - 1 : last]
    now = trace.now if last == len(trace.entries) else None
    least = min([entry.now for entry in entries], default=trace.now)
    return Scene(
        name,
        first,
        last,
        len(trace.entries),
        now,
        (least, entries[-1].now if now is None else now),
        entries,
        story.marks[first - 1 : last],
        [row(cpu, lane, trace.cpus) for cpu, lane in story.cpus.items()],
        [row(cpu, lane.load, {}) for cpu, lane in story.cpus.items()],
        [row(thread, lane, trace.threads) for thread, lane in story.threads.items()],
        {thread: [n for n in story.marked.get(thread, []) if first <= n <= last] for thread in story.threads},
        [link for link in story.links if first <= link.begin and link.end <= last],
        list(groups),
    )


def label_of(row):
    """The class and the nice value of a thread, as its final line tells them."""
    return " ".join(row.final.split(" ")[3:5]) if row.final else ""


class EntryAxis:
    """The axis of entry numbers, on which a coordinate stands at itself."""

    name = "entry"
    folds = ()

    def __init__(self, scene):
        self.low, self.high = scene.first - 1, scene.last + 1

    def at(self, coordinate):
        """Where a coordinate stands."""
        return coordinate

    def words(self, coordinate):
        """What stands at a coordinate along the axis."""
        return str(coordinate)


class TickAxis:
    """The axis of time in hz ticks, with a margin before the first time and behind the last one.

    Each time stands nearer to the first one by what was folded before it.
    """

    name = "hz tick"

    def __init__(self, scene, folds=()):
        self.scene, self.folds = scene, folds
        times = scene.times()
        self.low, self.high = self.place(min(times)), self.place(max(times))
        margin = max(1, (self.high - self.low) // 50)
        self.low, self.high = self.low - margin, self.high + margin

    def place(self, time):
        """Where a time stands."""
        return time - sum(fold.end - fold.begin - fold.width for fold in self.folds if fold.end <= time)

    def at(self, coordinate):
        """Where a coordinate stands."""
        if coordinate < self.scene.first:
            return self.low
        if coordinate > self.scene.last:
            return self.high
        return self.place(self.scene.time_at(coordinate))

    def words(self, coordinate):
        """What stands at a coordinate along the axis."""
        return str(self.scene.time_at(coordinate))


class Fold(NamedTuple):
    """A long time without an entry, from one time to another, and how wide it is drawn, in hz ticks."""

    begin: int
    end: int
    width: int


USUAL_GAPS_OF_LONG, USUAL_GAPS_OF_FOLD = 16, 4


def folds_of(scene):
    """The gaps between entries that are far longer than the usual one, which is the middle one of all."""
    times = sorted(set(scene.times()))
    gaps = sorted(after - before for before, after in zip(times, times[1:]))
    usual = gaps[(len(gaps) - 1) // 2] if gaps else 0
    return [
        Fold(before, after, USUAL_GAPS_OF_FOLD * usual)
        for before, after in zip(times, times[1:])
        if after - before > USUAL_GAPS_OF_LONG * usual
    ]


def stretches(row, scene):
    """The pieces of a row, each with the coordinates where it begins and ends."""
    return zip(row.starts, [*row.starts[1:], scene.last + 1], row.pieces)


def style_of(place):
    """The name of the way in which a place is drawn; none where the place isn't told."""
    return place.queue[0] if place.queue else place.state


def short_of(place):
    """A place as a trace spells it, without what isn't told."""
    if place.state is None:
        return ""
    letter = {"asleep": "s"}.get(place.state, place.state[0])
    where = "" if place.where is None else str(place.where)
    return letter + where + (".%s.%d" % place.queue if place.queue else "")


def words_of(place):
    """A place in words, without what isn't told."""
    if place.state is None:
        return "not told"
    words = {"hand": "in the hand"}.get(place.state, place.state)
    of = {"running": " on CPU %d", "queued": " on CPU %d", "asleep": " on channel %d", "hand": " of worker %d"}
    if place.state in of:
        words += " of a worker" if place.state == "hand" and place.where is None else ""
        words += "" if place.where is None else of[place.state] % place.where
    return words + (", %s queue, bucket %d" % place.queue if place.queue else "")


def runner_words(thread):
    """What a CPU runs, in words."""
    return {NOBODY: "no thread runs", NOT_TOLD: "not told"}.get(thread, "thread %d runs" % thread)
