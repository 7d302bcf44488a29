"""What each entry of a trace tells of the lanes, and which entries have a mark."""
from collections import defaultdict
from typing import Dict, List, NamedTuple

from .lanes import (
    GONE,
    NOBODY,
    UNBORN,
    CpuLane,
    ThreadLane,
    asleep,
    in_hand,
    place_of,
    queued,
    running,
)
from .links import Link, links_of

# the marks, each with its letter and what it says
MARKS = {
    "slice end": ("E", "the slice of the current thread ended"),
    "preemption": ("P", "the thread that left was preempted"),
    "steal": ("S", "an idle CPU took a thread from another one"),
    "balance": ("B", "balancing moved a thread from one CPU to another"),
    "lend": ("L", "a priority was lent to the thread"),
    "unlend": ("U", "a lent priority was taken back"),
    "fork": ("F", "the current thread forked another one"),
}


class Story(NamedTuple):
    """The lanes of a trace by number, the mark of each entry or none, the marked entries by thread, and the links."""

    cpus: Dict[int, CpuLane]
    threads: Dict[int, ThreadLane]
    marks: List[str]
    marked: Dict[int, List[int]]
    links: List[Link]


class Teller:
    """Tells the entries to the lanes, one by one.

    The call for an event and its reply is named by both words; a pair that has none tells no place.
    """

    def __init__(self):
        self.cpus = defaultdict(CpuLane)
        self.threads = defaultdict(ThreadLane)
        self.at = 0
        self.worker = 0

    def tell(self, at, entry):
        """What one entry tells."""
        self.at, self.worker = at, entry.worker
        call = getattr(self, "_".join((entry.event[0], entry.reply[0])), None)
        if call is not None:
            call(*entry.event[1:], *entry.reply[1:])

    def at_place(self, thread, place):
        """The thread stands at a place, and stood there before."""
        self.threads[int(thread)].tell(self.at, place)
        if place.state == "running":
            self.cpus[place.where].tell(self.at, int(thread))

    def goes(self, thread, before, after):
        """The thread goes from one place to another."""
        self.threads[int(thread)].leave(self.at, before, after)

    def runs(self, cpu, thread):
        """The thread, or none, is the current one of a CPU, and was before."""
        if thread == "-":
            self.cpus[int(cpu)].tell(self.at, NOBODY)
        else:
            self.at_place(thread, running(int(cpu)))

    def gives_way(self, cpu, leaver, after, taker):
        """The leaver, or none, goes from a CPU to a place; the taker, or none, comes from its queues."""
        here = int(cpu)
        numbers = [NOBODY if thread == "-" else int(thread) for thread in (leaver, taker)]
        if leaver != "-" and leaver == taker:
            self.runs(cpu, leaver)
            return
        self.cpus[here].leave(self.at, *numbers)
        if leaver != "-":
            self.goes(leaver, running(here), after)
        if taker != "-":
            self.goes(taker, queued(here), running(here))

    def tick_ticked(self, cpu, current, _due, _ended):
        self.runs(cpu, current)

    def switch_switched(self, cpu, _why, leaver, taker, _preempted):
        self.gives_way(cpu, leaver, queued(int(cpu)), taker)

    def no_current(self, cpu, *_words):
        """The CPU has no current thread."""
        self.runs(cpu, "-")

    switch_nothing = drop_nothing = exit_nothing = no_current

    def drop_dropped(self, cpu, _channel, leaver, taker):
        self.gives_way(cpu, leaver, in_hand(self.worker), taker)

    def exit_exited(self, cpu, leaver, taker, _parent, _run):
        self.gives_way(cpu, leaver, in_hand(self.worker), taker)

    def bed_bedded(self, thread, channel):
        self.goes(thread, in_hand(self.worker), asleep(int(channel)))

    def wake_woken(self, thread, _priority, _bound, _last, _last_run):
        self.goes(thread, asleep(), in_hand(self.worker))

    def land_landed(self, thread, cpu, kind, bucket, _yes):
        self.goes(thread, in_hand(self.worker), queued(int(cpu), kind, bucket))

    def move_moved(self, giver, taker, _why, thread, kind, bucket, _yes):
        self.goes(thread, queued(int(giver)), queued(int(taker), kind, bucket))

    def changed(self, thread, *words):
        """The priority of a thread changed; its place did only where it was queued anew."""
        _priority, requeued, _marked = words[-3:]
        if requeued == "1":
            self.threads[int(thread)].requeue(self.at)

    lend_changed = unlend_changed = renice_changed = inherit_changed = changed

    def left_there(self, thread, *words):
        """The thread stays at the place that the reply tells."""
        self.at_place(thread, place_of(words[-1]))

    wake_notasleep = lend_notallowed = unlend_notallowed = renice_notallowed = left_there

    def inherit_parentgone(self, thread, _run):
        self.at_place(thread, GONE)

    def hatch_hatched(self, thread):
        self.goes(thread, UNBORN, in_hand(self.worker))

    def fork_forked(self, cpu, child, parent, _priority):
        self.runs(cpu, parent)
        self.at_place(child, in_hand(self.worker))

    def fork_nothing(self, cpu, child):
        self.runs(cpu, "-")
        self.at_place(child, in_hand(self.worker))

    def return_returned(self, thread):
        self.goes(thread, in_hand(self.worker), UNBORN)

    def bury_buried(self, thread):
        self.goes(thread, in_hand(self.worker), GONE)


def mark_of(entry):
    """The mark of an entry, and the thread that it is about; none twice where it has no mark."""
    event, reply = entry.event, entry.reply
    pair = (event[0], reply[0])
    if pair == ("tick", "ticked") and reply[3] == "1":
        return "slice end", reply[1]
    if pair == ("switch", "switched") and reply[3] == "1":
        return "preemption", reply[1]
    if pair == ("move", "moved"):
        return event[3], reply[1]
    if pair in (("lend", "changed"), ("unlend", "changed")):
        return event[0], event[1]
    if pair == ("fork", "forked"):
        return "fork", event[2]
    return None, None


def told_priority(entry):
    """The thread whose priority a reply tells, and the priority; none twice where it tells none."""
    event, reply = entry.event, entry.reply
    if reply[0] in ("woken", "changed"):
        return int(event[1]), int(reply[1])
    return (int(event[2]), int(reply[2])) if reply[0] == "forked" else (None, None)


def named_in(entry):
    """The CPUs and the threads that an entry names by its worker and its event."""
    word, first, worker = entry.event[0], int(entry.event[1]), entry.worker
    if word == "move":
        return (worker, first, int(entry.event[2])), ()
    if word == "fork":
        return (worker, first), (int(entry.event[2]),)
    if word in ("tick", "switch", "drop", "look", "exit"):
        return (worker, first), ()
    return (worker, int(entry.event[2])) if word == "land" else (worker,), (first,)


def story_of(trace):
    """The lanes and the marks of a trace."""
    teller = Teller()
    marks, marked = [], defaultdict(list)
    cpus, threads = set(trace.cpus), set(trace.threads)
    for number, entry in enumerate(trace.entries, 1):
        teller.tell(number, entry)
        named = named_in(entry)
        cpus.update(named[0])
        threads.update(named[1])
        mark, about = mark_of(entry)
        marks.append(mark)
        if mark is not None and about != "-":
            marked[int(about)].append(number)
    for cpu in cpus:
        teller.cpus.setdefault(cpu, CpuLane())
    for thread in threads:
        teller.threads.setdefault(thread, ThreadLane())
    close(trace, teller)
    links = links_of(trace.entries, teller.threads)
    return Story(dict(sorted(teller.cpus.items())), dict(sorted(teller.threads.items())), marks, marked, links)


def close(trace, teller):
    """What the final lines tell, and the loads, which count the threads that are drawn on a CPU."""
    end = len(trace.entries) + 1
    finals = {thread: place_of(line.split(" ")[2]) for thread, line in trace.threads.items()}
    current = {place.where: thread for thread, place in finals.items() if place.state == "running"}
    for thread, lane in teller.threads.items():
        lane.close(end, finals.get(thread))
    for cpu in {*trace.cpus, *current}:
        teller.cpus[cpu].close(end, current.get(cpu, NOBODY))
    changes = defaultdict(lambda: defaultdict(int))
    for lane in teller.threads.values():
        for at, stay, change in lane.ends():
            if stay.state in ("running", "queued") and stay.where is not None:
                changes[stay.where][at] += change
    for cpu, load_changes in changes.items():
        teller.cpus[cpu].count(load_changes)
