"""What the words of a trace may be: events, replies, places and the numbers in them.

A field is a function from a word to whether it may stand there. A form is the list of the fields that
stand behind a first word.
"""


def within(greatest):
    """The field of the numbers from 0 to `greatest`, without leading zeros."""
    if greatest < 256:
        return frozenset(str(number) for number in range(greatest + 1)).__contains__
    longest = len(str(greatest))

    def is_number(word):
        return (
            0 < len(word) <= longest
            and word.isascii()
            and word.isdigit()
            and (word[0] != "0" or word == "0")
            and int(word) <= greatest
        )

    return is_number


def one_of(*words):
    """The field of the words that are given."""
    return frozenset(words).__contains__


def or_none(field):
    """The field that may be `-`, for none, too."""
    return lambda word: word == "-" or field(word)


NUMBER = within(2**64 - 1)
THREAD = within(255)
CPU = within(15)
PRIORITY = within(255)
BUCKET = within(63)
POSITION = within(255)
CHANNEL = within(65_535)
ENTRY = within(65_536)
NICE = one_of(*(str(number) for number in range(-20, 21)))
FLAG = one_of("0", "1")
KIND = one_of("real", "batch", "idle")
CLASS = one_of("ithd", "rt", "fifo", "ts", "idle")
LOCK = one_of("b", *(str(number) for number in range(25)))


def is_place(word, of_queued=(CPU, KIND, BUCKET)):
    """Whether a word is a place; `of_queued` has the fields of the parts of a queued thread's."""
    if word in ("u", "g"):
        return True
    letter, rest = word[:1], word[1:]
    if letter == "q":
        parts = rest.split(".")
        return len(parts) == len(of_queued) and all(map(fits, of_queued, parts))
    field = {"r": CPU, "h": CPU, "s": CHANNEL}.get(letter)
    return field is not None and field(rest)


def is_final_place(word):
    """Whether a word is a place of a final line, where a queued thread has its position too."""
    return is_place(word, (CPU, KIND, BUCKET, POSITION))


def fits(field, word):
    """Whether a word may stand in a field."""
    return field(word)


EVENTS = {
    "tick": [CPU],
    "switch": [CPU, one_of("yield", "resched")],
    "drop": [CPU, CHANNEL],
    "bed": [THREAD, CHANNEL],
    "wake": [THREAD],
    "look": [CPU],
    "land": [THREAD, CPU],
    "move": [CPU, CPU, one_of("steal", "balance")],
    "lend": [THREAD, PRIORITY],
    "unlend": [THREAD],
    "renice": [THREAD, NICE],
    "hatch": [THREAD],
    "fork": [CPU, THREAD],
    "return": [THREAD],
    "exit": [CPU],
    "bury": [THREAD],
    "inherit": [THREAD, NUMBER],
}

REPLIES = {
    "ticked": [or_none(THREAD), FLAG, FLAG],
    "unmarked": [],
    "nothing": [],
    "switched": [or_none(THREAD), or_none(THREAD), FLAG],
    "dropped": [THREAD, or_none(THREAD)],
    "bedded": [],
    "hatched": [],
    "returned": [],
    "buried": [],
    "notasleep": [is_place],
    "woken": [PRIORITY, or_none(CPU), CPU, NUMBER],
    "seen": [NUMBER, NUMBER, PRIORITY],
    "landed": [KIND, BUCKET, FLAG],
    "moved": [THREAD, KIND, BUCKET, FLAG],
    "nonemovable": [NUMBER, NUMBER, NUMBER],
    "changed": [PRIORITY, FLAG, FLAG],
    "notallowed": [is_place],
    "forked": [THREAD, PRIORITY],
    "exited": [THREAD, or_none(THREAD), or_none(THREAD), NUMBER],
    "parentgone": [],
}

# ID PLACE CLASS NICE, BASE LENT PRI, RUN to SLEPTAT, LAST LASTRUN BOUND PARENT WORD
THREAD_LINE = [
    *(THREAD, is_final_place, CLASS, NICE),
    *(PRIORITY, or_none(PRIORITY), PRIORITY),
    *(NUMBER, NUMBER, NUMBER, NUMBER, NUMBER, NUMBER, NUMBER),
    *(CPU, NUMBER, or_none(CPU), or_none(THREAD), LOCK),
]

# C IDX RIDX RESCHED SLICEEND SWITCHES OLD BALANCE
CPU_LINE = [CPU, BUCKET, BUCKET, FLAG, FLAG, NUMBER, NUMBER, NUMBER]


def is_form(form, words):
    """Whether the words are those of a form, one for each field."""
    return len(words) == len(form) and all(map(fits, form, words))


def is_spelled(forms, words):
    """Whether the words are a first word and the form that a table has for it."""
    return bool(words) and words[0] in forms and is_form(forms[words[0]], words[1:])
