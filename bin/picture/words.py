"""The words of the command line, and what goes where."""
import argparse
import os

from .groups import NotGroups, groups_in
from .reader import NotATrace, read_trace
from .scene import EntryAxis, TickAxis, folds_of, scene_of
from .turns import is_weave, read_weave

STANDARD_INPUT, STANDARD_OUTPUT, STANDARD_ERROR = 0, 1, 2
NO_PICTURE, WRONG_WORDS = 1, 2

USAGE = "usage: ule-picture [--perfetto | --svg] [--ticks] [--from K] [--to K] [--scenario FILE] [FILE]"
ABOUT = """
Reads a trace or a weave, from FILE or from standard input, and writes a picture of it to standard output.
A weave is drawn by its turns: what each worker does, who holds which lock, and the word and the place of each thread.

  --perfetto  write JSON of the Chrome trace event format, which Perfetto and chrome://tracing open
  --svg       write an SVG picture without script
              (else write one page of HTML, which needs no network)
  --ticks     begin with time in hz ticks along the axis, in place of the numbers of the entries;
              a long time without an entry is folded, but not in JSON
  --from K    draw from entry K on, of a weave from turn K on
  --to K      draw up to entry K, of a weave up to turn K
  --scenario FILE
              draw the groups of CPUs of the scenario in FILE too: a bar for each group along its CPUs,
              left of their lanes, the outermost leftmost; not in JSON
  --help      write this page

Of these --perfetto, --ticks and --scenario are for traces alone.

The status is 0, or 1 where there is no picture, and 2 where the words are wrong.
"""


class WrongWords(Exception):
    """The words of the command line are wrong, for the reason that it is made with."""


class Words(argparse.ArgumentParser):
    """A reader of words that raises WrongWords."""

    def error(self, message):
        """Raises what the words are wrong for."""
        raise WrongWords(message)


def entry_number(word):
    """The number of an entry that a word spells."""
    if not (word.isascii() and word.isdigit() and len(word) <= 5 and 1 <= int(word) <= 65_536):
        raise argparse.ArgumentTypeError("%r is no number from 1 to 65536" % word)
    return int(word)


def asked_by(arguments):
    """What the words of the command line ask for."""
    words = Words(prog="ule-picture", add_help=False, allow_abbrev=False)
    form = words.add_mutually_exclusive_group()
    form.add_argument("--perfetto", action="store_true")
    form.add_argument("--svg", action="store_true")
    words.add_argument("--ticks", action="store_true")
    words.add_argument("--from", dest="first", type=entry_number, default=1)
    words.add_argument("--to", dest="last", type=entry_number, default=65_536)
    words.add_argument("--scenario")
    words.add_argument("--help", action="store_true")
    words.add_argument("file", nargs="?", default="-")
    asked = words.parse_args(arguments)
    if asked.first > asked.last:
        raise WrongWords("no entry is from %d to %d" % (asked.first, asked.last))
    return asked


def bytes_in(file):
    """The bytes in a file, or in standard input for `-`."""
    with open(STANDARD_INPUT if file == "-" else file, "rb") as source:
        return source.read()


def groups_of(file):
    """The groups of CPUs of the scenario in a file, or none where no file is named."""
    if file is None:
        return []
    with open(file, "rb") as source:
        return groups_in(source.read())


def name_of(file):
    """The name of a file in a picture, with `?` for what can't be printed."""
    name = "standard input" if file == "-" else os.path.basename(file)
    return "".join(letter if letter.isprintable() else "?" for letter in name)


def text_of(asked, trace):
    """The picture of a trace that the words ask for."""
    last = min(asked.last, len(trace.entries))
    if asked.first > max(last, 1):
        raise WrongWords("no entry is from %d on; the trace has %d" % (asked.first, len(trace.entries)))
    scene = scene_of(trace, name_of(asked.file), asked.first, last, groups_of(asked.scenario))
    if asked.perfetto:
        from .chrome import chrome_text

        return chrome_text(scene, TickAxis(scene) if asked.ticks else EntryAxis(scene))
    axis = TickAxis(scene, folds_of(scene)) if asked.ticks else EntryAxis(scene)
    if asked.svg:
        from .svg import svg_text

        return svg_text(scene, axis)
    from .page import page_text

    return page_text(scene, axis)


def weave_text_of(asked, weave):
    """The picture of a weave that the words ask for."""
    if asked.perfetto or asked.ticks or asked.scenario is not None:
        raise WrongWords("a weave has no times and no groups that could be drawn")
    last = min(asked.last, len(weave.turns))
    if asked.first > max(last, 1):
        raise WrongWords("no turn is from %d on; the weave has %d" % (asked.first, len(weave.turns)))
    from .weave import weave_page, weave_svg

    return (weave_svg if asked.svg else weave_page)(weave, name_of(asked.file), asked.first, last)


def picture_of(asked, data):
    """The picture of a trace or of a weave that the words ask for."""
    return weave_text_of(asked, read_weave(data)) if is_weave(data) else text_of(asked, read_trace(data))


def picture(arguments):
    """Writes what the words of the command line ask for."""
    asked = asked_by(arguments)
    text = USAGE + "\n" + ABOUT if asked.help else picture_of(asked, bytes_in(asked.file))
    with open(STANDARD_OUTPUT, "wb") as sink:
        sink.write(text.encode("ascii", "replace"))


def say(message):
    """One line on standard error."""
    line = "ule-picture: %s\n" % " ".join(str(message).split())
    try:
        os.write(STANDARD_ERROR, line.encode("ascii", "backslashreplace"))
    except OSError:
        pass


def main(arguments):
    """The status of the script for the words of the command line."""
    try:
        picture(arguments)
        return 0
    except WrongWords as wrong:
        say("%s; %s" % (wrong, USAGE))
        return WRONG_WORDS
    except (NotATrace, NotGroups) as fault:
        say(fault)
    except BrokenPipeError:
        pass
    except OSError as fault:
        say("%s: %s" % (fault.filename or "a standard stream", fault.strerror))
    except KeyboardInterrupt:
        pass
    return NO_PICTURE
