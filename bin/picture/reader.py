"""Reads the text of a trace, which has one spelling, and names the first line that is wrong."""
from typing import Dict, List, NamedTuple, Tuple

from . import grammar


class NotATrace(Exception):
    """The text is no trace, or no weave: `line` is the first line at which it can't be one, counted from 1."""

    def __init__(self, line, what="trace"):
        super().__init__("line %d is not how a %s goes on" % (line, what))
        self.line = line


class Entry(NamedTuple):
    """One entry: its worker, its time in hz ticks, its event and reply as words, and its whole line."""

    worker: int
    now: int
    event: Tuple[str, ...]
    reply: Tuple[str, ...]
    line: str


class Trace(NamedTuple):
    """A trace: its entries, the final line of each thread and of each CPU by number, and its last time."""

    entries: List[Entry]
    threads: Dict[int, str]
    cpus: Dict[int, str]
    now: int


class Lines:
    """The lines of a text, taken one after another; `what` is what it is to be."""

    def __init__(self, text, what="trace"):
        *self.whole, self.unended = text.split("\n")
        self.what, self.taken = what, 0

    def peek(self):
        """The next line, which ends with a newline; a text that has none is wrong there."""
        if self.taken == len(self.whole):
            raise self.fault()
        return self.whole[self.taken]

    def take(self):
        """The next line, which counts as read from here on."""
        line = self.peek()
        self.taken += 1
        return line

    def fault(self):
        """The fault that names the next line."""
        return NotATrace(self.taken + 1, self.what)

    def end(self):
        """Checks that the text ends here."""
        if self.taken < len(self.whole) or self.unended:
            raise self.fault()


def read_trace(data):
    """The trace that the bytes spell, or NotATrace."""
    lines = Lines(data.decode("latin-1"))
    if lines.peek() != "ule-trace 1":
        raise lines.fault()
    lines.take()
    entries = read_entries(lines)
    threads = read_threads(lines)
    cpus = read_cpus(lines)
    now = read_number(lines, "now", grammar.NUMBER)
    if read_number(lines, "done", grammar.ENTRY) != len(entries):
        raise NotATrace(lines.taken)
    lines.end()
    return Trace(entries, threads, cpus, now)


def read_entries(lines):
    """The entry lines, which are numbered from 1 on."""
    entries = []
    while lines.peek()[:1].isdigit():
        entry = entry_of(lines.peek(), len(entries) + 1)
        if entry is None:
            raise lines.fault()
        entries.append(entry)
        lines.take()
    return entries


def entry_of(line, number):
    """The entry that a line spells, or none where it isn't the line of an entry of this number."""
    words = line.split(" ")
    if "->" not in words[4:-1] or words[0] != str(number) or not grammar.ENTRY(words[0]):
        return None
    arrow = words.index("->")
    worker, now, event, reply = words[1], words[2], words[3:arrow], words[arrow + 1 :]
    is_entry = (
        worker[0:1] == "w"
        and grammar.CPU(worker[1:])
        and grammar.NUMBER(now)
        and grammar.is_spelled(grammar.EVENTS, event)
        and grammar.is_spelled(grammar.REPLIES, reply)
    )
    return Entry(int(worker[1:]), int(now), tuple(event), tuple(reply), line) if is_entry else None


def read_threads(lines):
    """The final lines of the threads, by rising number."""
    threads = {}
    while lines.peek().startswith("t "):
        words = lines.peek().split(" ")
        is_line = grammar.is_form(grammar.THREAD_LINE, words[1:])
        if not is_line or int(words[1]) <= max(threads, default=-1):
            raise lines.fault()
        threads[int(words[1])] = lines.take()
    return threads


def read_cpus(lines):
    """The final lines of the CPUs, numbered from 0 on, at least one."""
    cpus = {}
    while lines.peek().startswith("c ") or not cpus:
        words = lines.peek().split(" ")
        is_line = words[0] == "c" and grammar.is_form(grammar.CPU_LINE, words[1:])
        if not is_line or words[1] != str(len(cpus)):
            raise lines.fault()
        cpus[len(cpus)] = lines.take()
    return cpus


def read_number(lines, word, field):
    """The number of a line that has a word and a number."""
    words = lines.peek().split(" ")
    if len(words) != 2 or words[0] != word or not field(words[1]):
        raise lines.fault()
    lines.take()
    return int(words[1])
