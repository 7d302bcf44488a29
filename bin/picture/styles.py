"""The colours and patterns of the pictures, which readers of every colour vision can tell apart.

The colours are those of Okabe and Ito and tints of them. No two states differ in colour alone: each has a
pattern of its own, but running and unborn threads, which are coloured and white. A mark has a letter.
"""
from typing import NamedTuple


class Style(NamedTuple):
    """A fill, the name of the lines over it, which is empty for none, and what it says."""

    fill: str
    lines: str
    says: str


RUNNING_TINTS = ("#3DB892", "#A3DECB", "#71CBAE")

STATES = {
    "running": Style(RUNNING_TINTS[0], "", "running, in one of three greens"),
    "real": Style("#56B4E9", "/", "queued, real queue"),
    "batch": Style("#A9D8F4", "-", "queued, batch queue"),
    "idle": Style("#D6ECF9", ".", "queued, idle queue"),
    "queued": Style("#A9D8F4", "~", "queued, queue not told"),
    "hand": Style("#F0B440", "x", "in a worker's hand"),
    "asleep": Style("#E4E4E4", "..", "asleep"),
    "unborn": Style("#FFFFFF", "", "unborn"),
    "gone": Style("#9A9A9A", "\\", "gone"),
}

# the lines of each pattern, from one point to another in a square of 6 by 6
PATTERN_LINES = {
    "/": ((-1, 1, 1, -1), (0, 6, 6, 0), (5, 7, 7, 5)),
    "\\": ((-1, 5, 1, 7), (0, 0, 6, 6), (5, -1, 7, 1)),
    "-": ((0, 1.5, 6, 1.5), (0, 4.5, 6, 4.5)),
    ".": ((1, 1.5, 2, 1.5), (4, 4.5, 5, 4.5)),
    "~": ((0.5, 3, 3.5, 3),),
    "..": ((2.6, 3, 3.4, 3),),
    "x": ((0, 0, 6, 6), (0, 6, 6, 0)),
}

# the fill and the letter's colour of each mark
MARK_COLOURS = {
    "slice end": ("#D55E00", "#FFFFFF"),
    "preemption": ("#CC79A7", "#000000"),
    "steal": ("#0072B2", "#FFFFFF"),
    "balance": ("#FFFFFF", "#0072B2"),
    "lend": ("#F0E442", "#000000"),
    "unlend": ("#FFFFFF", "#000000"),
    "fork": ("#000000", "#FFFFFF"),
}

# the colour of each kind of arrow, and the lengths of its dashes and gaps
LINK_LOOKS = {
    "wake": ("#0072B2", "none"),
    "switch": ("#B0306A", "4 2"),
}

# the bars of groups of CPUs by their depth
GROUP_COLOURS = ("#000000", "#D55E00", "#0072B2", "#CC79A7")

# the fill and the edge of each kind of step of a weave, and of a turn that was no step
STEP_LOOKS = {
    "read": ("#FFFFFF", "#7A7A7A"),
    "take": ("#D6ECF9", "#0072B2"),
    "now": ("#F4F4F4", "#7A7A7A"),
    "commit": ("#71CBAE", "#000000"),
    "block": ("#F0B440", "#7A7A7A"),
    "point": ("#F0E442", "#7A7A7A"),
    "release": ("#FFFFFF", "#0072B2"),
    "advance": ("#E4E4E4", "#7A7A7A"),
    "lost": ("#FFFFFF", "#D55E00"),
    "blocked": ("#FFFFFF", "#D55E00"),
    "finished": ("#FFFFFF", "#CCCCCC"),
}

# the edge of a word that is still to be changed
WRONG_WORD = "#D55E00"

LOAD = "#0072B2"
LINE = "#4D4D4D"
EDGE = "#7A7A7A"
FAINT = "#CCCCCC"
FAINT_WORDS = "#9A9A9A"


def tint_of(order):
    """The tint of the thread that comes at a place of the order of threads, which neighbours don't share."""
    return RUNNING_TINTS[order % len(RUNNING_TINTS)]
