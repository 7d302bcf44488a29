"""An entry in words, by patterns that the page fills in too.

A pattern has fields in braces: `{e1}` is the first word behind the event's name and `{r2}` the second one
behind the reply's; `{r1 thread}` is that thread, or `no thread`; `{r3=1|so|else}` is `so` where that word is
1, and else what stands behind.
"""
import re

EVENT_SAYS = {
    "tick": "a stathz tick on CPU {e1}",
    "switch": "CPU {e1} is to choose what to run, {e2=yield|since its current thread gives way|if its mark asks for it}",
    "drop": "the current thread of CPU {e1} is to leave it, to sleep on channel {e2}",
    "bed": "thread {e1}, in the hand of the worker, is to fall asleep on channel {e2}",
    "wake": "thread {e1} is to be woken",
    "look": "a look at CPU {e1}",
    "land": "thread {e1}, in the hand of the worker, is to be queued on CPU {e2}",
    "move": "a thread is to move from CPU {e1} to CPU {e2}, {e3=steal|which has none|for balance}",
    "lend": "thread {e1} is to be lent the priority {e2}",
    "unlend": "what thread {e1} is lent is to be taken back",
    "renice": "thread {e1} is to get the nice value {e2}",
    "hatch": "thread {e1}, which is unborn, is to be forked",
    "fork": "the current thread of CPU {e1} is to fork thread {e2}",
    "return": "thread {e1}, which nobody forked, is to be unborn again",
    "exit": "the current thread of CPU {e1} is to leave for good",
    "bury": "thread {e1}, in the hand of the worker, is to be buried",
    "inherit": "thread {e1} is to be charged {e2}, the run time of a child that left for good",
}

REPLY_SAYS = {
    "ticked": "{r1=-|no thread runs|thread {r1} runs}{r3=1|, and its slice ended, which sets both marks|}"
    "{r2=1|; a balance is due|}",
    "unmarked": "the mark wasn't set, and nothing changed",
    "nothing": "there was no thread to do it with",
    "switched": "{r1=-|nothing ran|thread {r1} {r3=1|was preempted|gave way}}, and {r2 thread} runs now",
    "dropped": "thread {r1} is in the hand of the worker, and {r2 thread} runs now",
    "bedded": "it sleeps",
    "hatched": "it is in the hand of the worker",
    "returned": "it is",
    "buried": "it is gone",
    "notasleep": "it stood at {r1}, and nothing changed",
    "woken": "it is in the hand of the worker, with priority {r1}; {r2=-|it is bound to no CPU|it is bound to CPU {r2}}, "
    "was last queued on CPU {r3} and last ran at {r4}",
    "seen": "the load is {r1}, movable are {r2}, and the best priority is {r3}",
    "landed": "it is in bucket {r2} of the {r1} queue, and {r3=1|is to take over, which sets the mark|takes nothing over}",
    "moved": "it is thread {r1}, which is now in bucket {r3} of the {r2} queue, "
    "and {r4=1|is to take over, which sets the mark|takes nothing over}",
    "nonemovable": "none moved: the loads are {r1} and {r3}, and movable were {r2}",
    "changed": "its priority is {r1}{r2=1|, and it was queued anew|}{r3=1|; it is to take over, which sets the mark|}",
    "notallowed": "it stands at {r1}, and nothing changed",
    "forked": "thread {r1} forked it, and its priority is {r2}",
    "exited": "thread {r1} is in the hand of the worker, and {r2 thread} runs now; "
    "{r3=-|it has no parent|its parent is thread {r3}}, and it ran for {r4}",
    "parentgone": "it is gone, and nothing changed",
}

FIELD = re.compile(r"\{([er])(\d)(?: (thread)|=([^|{}]*)\|([^|{}]*)\|([^|{}]*))?\}")


def filled(pattern, event, reply):
    """A pattern with its fields filled in, those within others first."""

    def spelled(found):
        side, at, thread, value, so, otherwise = found.groups()
        word = (event if side == "e" else reply)[int(at)]
        if thread:
            return "no thread" if word == "-" else "thread " + word
        if value is not None:
            return so if word == value else otherwise
        return word

    before = None
    while before != pattern:
        before, pattern = pattern, FIELD.sub(spelled, pattern)
    return pattern


def says(entry):
    """An entry in words."""
    event = filled(EVENT_SAYS[entry.event[0]], entry.event, entry.reply)
    return "%s: %s" % (event, filled(REPLY_SAYS[entry.reply[0]], entry.event, entry.reply))
