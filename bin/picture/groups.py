"""The groups of CPUs that a scenario has, as a trace doesn't tell them."""
from typing import List, NamedTuple, Tuple

from . import grammar

GREATEST_DEPTH = 4


class Group(NamedTuple):
    """A group of CPUs: its number, how deep it lies, where the root has depth 1, and its CPUs."""

    number: int
    depth: int
    cpus: Tuple[int, ...]

    def says(self):
        """The group in words."""
        return "group %d: CPUs %s" % (self.number, " ".join(map(str, self.cpus)))


class NotGroups(Exception):
    """A group of a scenario can't be drawn: `line` is the first one that can't, counted from 1."""

    def __init__(self, line):
        super().__init__("line %d of the scenario is no group that can be drawn" % line)
        self.line = line


def groups_in(data):
    """The groups of a scenario's bytes, in the order of their lines; of its other lines nothing is read."""
    depths = {"-": 0}
    groups: List[Group] = []
    for number, line in enumerate(data.decode("latin-1").split("\n"), 1):
        words = [word for word in line.split(" ") if word]
        if words[:1] != ["group"]:
            continue
        group = group_of(words[1:], depths)
        if group is None:
            raise NotGroups(number)
        depths[words[1]] = group.depth
        groups.append(group)
    return groups


def group_of(words, depths):
    """The group of the words behind `group`, or none; `depths` has those of the groups before it."""
    number, parent, cpus = words[:1], words[1:2], words[2:]
    is_line = cpus and grammar.CPU(number[0]) and parent[0] in depths and all(map(grammar.CPU, cpus))
    if not is_line or depths[parent[0]] == GREATEST_DEPTH:
        return None
    return Group(int(number[0]), depths[parent[0]] + 1, tuple(map(int, cpus)))
