"""Where each thread stood and what each CPU ran, as the entries and the final lines tell it.

A coordinate is the number of an entry: what an entry brings about holds from its number on, and what stood
before the first entry holds from 0. A stay lasts until the next one of its lane begins. What is told of a
stay anywhere in it holds for the whole stay, since each entry that changes a place names the thread.
"""
from bisect import bisect_right
from typing import NamedTuple, Optional, Tuple

NOBODY = -1
NOT_TOLD = -2


class Place(NamedTuple):
    """A place, as far as it is told.

    `where` is the CPU of a running or queued thread, the channel of a sleeper, or the worker that has the
    thread in hand; `queue` is the kind and the bucket of a queued one.
    """

    state: Optional[str] = None
    where: Optional[int] = None
    queue: Optional[Tuple[str, int]] = None

    def agrees(self, other):
        """Whether both may be told of one stay."""
        return all(a is None or b is None or a == b for a, b in zip(self, other))

    def joined(self, other):
        """What both tell together."""
        return Place(*(b if a is None else a for a, b in zip(self, other)))


def running(cpu):
    """The place of the current thread of a CPU."""
    return Place("running", cpu)


def queued(cpu, kind=None, bucket=None):
    """The place of a thread that is queued on a CPU, in a queue that may not be told."""
    return Place("queued", cpu, None if kind is None else (kind, int(bucket)))


def asleep(channel=None):
    """The place of a sleeper."""
    return Place("asleep", channel)


def in_hand(worker):
    """The place of a thread that a worker has in hand."""
    return Place("hand", worker)


UNBORN = Place("unborn")
GONE = Place("gone")


def place_of(word):
    """The place that a word of a trace spells; a position in a bucket is left out."""
    letter, rest = word[0], word[1:]
    if letter == "q":
        cpu, kind, bucket = rest.split(".")[:3]
        return queued(int(cpu), kind, bucket)
    if letter in "ug":
        return UNBORN if letter == "u" else GONE
    return {"r": running, "s": asleep, "h": in_hand}[letter](int(rest))


class Lane:
    """The stays of one thread or CPU: where each begins, and what is told of it."""

    def __init__(self, nothing):
        self.starts = [0]
        self.stays = [nothing]

    def begin(self, at, stay):
        """A stay begins at a coordinate, in place of one that would begin there too."""
        if self.starts[-1] == at:
            self.stays[-1] = stay
        else:
            self.starts.append(at)
            self.stays.append(stay)

    def stay_at(self, coordinate):
        """The stay at a coordinate."""
        return self.stays[bisect_right(self.starts, coordinate) - 1]

    def ends(self):
        """The begin of each stay, as its coordinate, the stay and 1, and its end with -1."""
        for number, (at, stay) in enumerate(zip(self.starts, self.stays)):
            yield at, stay, 1
            if number + 1 < len(self.starts):
                yield self.starts[number + 1], stay, -1

    def window(self, first, last):
        """The starts and the stays from coordinate `first` up to `last`."""
        low = bisect_right(self.starts, first) - 1
        high = max(low + 1, bisect_right(self.starts, last))
        return [max(first, start) for start in self.starts[low:high]], self.stays[low:high]


class ThreadLane(Lane):
    """The places of one thread."""

    def __init__(self):
        super().__init__(Place())
        self.requeues = []

    def tell(self, at, place):
        """The thread stands at a place, and has stood there since its stay began."""
        if self.stays[-1].agrees(place):
            self.stays[-1] = self.stays[-1].joined(place)
        else:
            self.begin(at, place)

    def leave(self, at, before, after):
        """The thread goes from one place to another."""
        if self.stays[-1].agrees(before):
            self.stays[-1] = self.stays[-1].joined(before)
        self.begin(at, after)

    def requeue(self, at):
        """The thread goes to another bucket of its CPU."""
        self.tell(at, Place("queued"))
        self.begin(at, Place("queued", self.stays[-1].where))
        self.requeues.append(len(self.stays) - 1)

    def close(self, at, place):
        """The final line tells the last stay, and a stay before a requeue has the CPU of the one behind."""
        if place is not None:
            self.tell(at, place)
        for number in reversed(self.requeues):
            later, earlier = self.stays[number], self.stays[number - 1] if number else Place("gone")
            if earlier.state == later.state and earlier.where is None:
                self.stays[number - 1] = earlier._replace(where=later.where)


class CpuLane(Lane):
    """The current threads of one CPU: a number, NOBODY or NOT_TOLD."""

    def __init__(self):
        super().__init__(NOT_TOLD)
        self.load = Lane(0)

    def tell(self, at, thread):
        """The thread is the current one, and has been since its stay began."""
        if self.stays[-1] == NOT_TOLD:
            self.stays[-1] = thread
        elif self.stays[-1] != thread:
            self.begin(at, thread)

    def leave(self, at, before, after):
        """One thread leaves the processor, and another one takes it."""
        self.tell(at, before)
        if after != before:
            self.begin(at, after)

    def close(self, at, thread):
        """The final lines tell the last stay."""
        if self.stays[-1] == NOT_TOLD:
            self.tell(at, thread)

    def count(self, changes):
        """The load, from the changes of it by coordinate."""
        load = 0
        for at in sorted(changes):
            load += changes[at]
            if load != self.load.stays[-1]:
                self.load.begin(at, load)
