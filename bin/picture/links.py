"""What leads from one entry to another: a wake to the woken thread, and a mark to the switch that it led to."""
from collections import defaultdict
from typing import NamedTuple, Optional


class Link(NamedTuple):
    """An arrow from one entry to another one, or to itself.

    That of a wake leads from it to the landing of the thread, or to itself where no landing follows. That of
    a switch leads to it from the entry that set a mark of its CPU, and is about no thread.
    """

    kind: str
    begin: int
    end: int
    thread: Optional[int]


LINKS = {
    "wake": "from a wake to the woken thread",
    "switch": "from a mark to the switch that it led to",
}


def links_of(entries, threads):
    """The links among the entries, in the order of their ends; `threads` are the lanes of the threads."""
    links = [*wakes(entries), *honoured(entries, threads)]
    return sorted(links, key=lambda link: (link.end, link.begin, link.kind))


def wakes(entries):
    """The links of the wakes."""
    woken = {}
    for number, entry in enumerate(entries, 1):
        thread, pair = entry.event[1], (entry.event[0], entry.reply[0])
        if pair == ("wake", "woken"):
            woken[thread] = number
        elif pair == ("land", "landed") and thread in woken:
            yield Link("wake", woken.pop(thread), number, int(thread))
    for thread, number in woken.items():
        yield Link("wake", number, number, int(thread))


def honoured(entries, threads):
    """The links of the switches that a mark asked for, from the entries that set it and the slice's mark first."""
    asking = defaultdict(list)
    for number, entry in enumerate(entries, 1):
        cpu = marked_cpu(number, entry, threads)
        if cpu is not None:
            asking[cpu].append((number, entry.event[0] == "tick"))
        elif clears_marks(entry):
            askers = asking.pop(int(entry.event[1]), [])
            if entry.event[2:] == ("resched",) and entry.reply[0] == "switched":
                yield from (Link("switch", asker, number, None) for asker in first_of(askers))


def clears_marks(entry):
    """Whether an entry clears the marks of its CPU: a thread left it, or it switched to none."""
    return entry.reply[0] in ("switched", "dropped", "exited") or (entry.event[0], entry.reply[0]) == ("switch", "nothing")


def marked_cpu(number, entry, threads):
    """The CPU whose mark an entry asks for, or none."""
    event, reply = entry.event, entry.reply
    if reply[0] == "changed" and reply[3] == "1":
        return threads[int(event[1])].stay_at(number).where
    at = {"ticked": 1, "landed": 2, "moved": 2}.get(reply[0])
    return int(event[at]) if at is not None and reply[-1] == "1" else None


def first_of(askers):
    """The first of the entries that asked for a switch, and the first tick among them, which ended a slice."""
    numbers = [number for number, _ in askers[:1]]
    numbers += [number for number, is_tick in askers if is_tick][:1]
    return sorted(set(numbers))
