"""Reads the text of a weave, which has one spelling, and names the first line that is wrong."""
from typing import Dict, List, NamedTuple, Optional, Tuple

from . import grammar
from .lanes import Place, place_of
from .reader import Lines

FIRST_LINE = "ule-weave 1"
LOCK = grammar.within(24)
MOST_TURNS = 4_096


class Turn(NamedTuple):
    """One turn: its worker, what it came to as words, and what stands behind it.

    `kind` is the word that the outcome is drawn by; `holders` has the worker of each lock that is held, `words` the
    lock that each thread's word names, or none where it is blocked, and `places` where each thread stands.
    """

    worker: int
    kind: str
    outcome: Tuple[str, ...]
    holders: Dict[int, int]
    words: Dict[int, Optional[int]]
    places: Dict[int, Place]


class Weave(NamedTuple):
    """A weave: its turns, and how many entries they made."""

    turns: List[Turn]
    entries: int


def is_weave(data):
    """Whether bytes begin as a weave does, and not as a trace."""
    return data.startswith(FIRST_LINE.encode() + b"\n")


def is_event_with_reply(words):
    """Whether words are an event, an arrow and a reply."""
    if "->" not in words:
        return False
    arrow = words.index("->")
    return grammar.is_spelled(grammar.EVENTS, words[:arrow]) and grammar.is_spelled(grammar.REPLIES, words[arrow + 1 :])


# what stands behind `moved`, and behind the word before another outcome
MOVED = {
    "read": [grammar.THREAD, grammar.LOCK],
    "take": [LOCK],
    "release": [LOCK],
    "now": [grammar.NUMBER],
    "block": [grammar.THREAD],
    "point": [grammar.THREAD, LOCK],
    "advance": [grammar.NUMBER],
}


def kind_of(words):
    """The word that an outcome is drawn by, or none where the words are no outcome."""
    first, rest = words[0], words[1:]
    if first == "finished":
        return None if rest else first
    if first == "blocked":
        return first if grammar.is_form([one("read"), grammar.THREAD, one("b")], rest) else None
    if first == "lost":
        return first if grammar.is_form([one("take"), LOCK, is_worker], rest) else None
    if first != "moved" or not rest:
        return None
    if rest[0] == "commit":
        is_commit = len(rest) > 2 and grammar.ENTRY(rest[1]) and is_event_with_reply(rest[2:])
        return "commit" if is_commit else None
    return rest[0] if grammar.is_spelled(MOVED, rest) else None


def one(word):
    """The field of one word."""
    return grammar.one_of(word)


def is_worker(word):
    """Whether a word names a worker."""
    return word[:1] == "w" and grammar.CPU(word[1:])


def read_weave(data):
    """The weave that the bytes spell, or NotATrace."""
    lines = Lines(data.decode("latin-1"), "weave")
    if lines.peek() != FIRST_LINE:
        raise lines.fault()
    lines.take()
    turns: List[Turn] = []
    while lines.peek().startswith("turn "):
        turns.append(read_turn(lines, len(turns) + 1))
    words = lines.peek().split(" ")
    entries = sum(turn.kind == "commit" for turn in turns)
    if words != ["done", str(len(turns)), str(entries)]:
        raise lines.fault()
    lines.take()
    lines.end()
    return Weave(turns, entries)


def read_turn(lines, number):
    """The three lines of a turn."""
    words = lines.peek().split(" ")
    is_turn = number <= MOST_TURNS and words[:2] == ["turn", str(number)] and len(words) > 3 and is_worker(words[2])
    kind = kind_of(words[3:]) if is_turn else None
    if kind is None:
        raise lines.fault()
    lines.take()
    holders = read_parts(lines, "locks", holder_of)
    threads = read_parts(lines, "threads", standing_of)
    return Turn(
        int(words[2][1:]),
        kind,
        tuple(words[3:]),
        holders,
        {thread: word for thread, (word, _) in threads.items()},
        {thread: place for thread, (_, place) in threads.items()},
    )


def read_parts(lines, first, part):
    """What the words of a line behind the first one tell of rising numbers; `-` stands for nothing."""
    words = lines.peek().split(" ")
    if words[0] != first or len(words) < 2:
        raise lines.fault()
    told = {}
    if words[1:] != ["-"]:
        for word in words[1:]:
            found = part(word)
            if found is None or found[0] <= max(told, default=-1):
                raise lines.fault()
            told[found[0]] = found[1]
    lines.take()
    return told


def holder_of(word):
    """The lock and its holder of a word such as `0=w1`."""
    lock, _, worker = word.partition("=")
    return (int(lock), int(worker[1:])) if LOCK(lock) and is_worker(worker) else None


def standing_of(word):
    """The thread, its word and its place of a word such as `0:b@h1`."""
    thread, _, rest = word.partition(":")
    name, _, place = rest.partition("@")
    if not (grammar.THREAD(thread) and grammar.LOCK(name) and grammar.is_place(place)):
        return None
    return int(thread), (None if name == "b" else int(name), place_of(place))
