"""How long each thread waited in each queue, as far as the window tells."""
from typing import NamedTuple

from .scene import stretches

NOT_TOLD = "not told"


class Wait(NamedTuple):
    """The stays of a thread in a queue of one kind: how many, their hz ticks together, and the longest stay."""

    thread: int
    queue: str
    stays: int
    total: int
    longest: int
    begin: int
    end: int


def waits_of(scene):
    """The waits of the threads in their order, and of each by the kind of the queue."""
    for row in scene.threads:
        stays = {}
        for begin, end, place in stretches(row, scene):
            if place.state == "queued":
                queue = place.queue[0] if place.queue else NOT_TOLD
                stays.setdefault(queue, []).append((scene.time_at(end) - scene.time_at(begin), begin, end))
        for queue, found in sorted(stays.items()):
            longest, begin, end = max(found, key=lambda stay: (stay[0], stay[2] - stay[1]))
            yield Wait(row.number, queue, len(found), sum(stay[0] for stay in found), longest, begin, end)
