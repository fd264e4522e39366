"""A picture that is held to what the program runlist prints."""

import subprocess
import xml.etree.ElementTree as ElementTree

from .acts import Run
from .lines import Problem
from .notes import drawn_line
from .picture import picture

MOST_COMMANDS = 400
MOST_SECONDS = 30
BUILDS = "`tools/build runlist` builds it"


def printed(program, data):
    """What runlist prints for an input."""
    try:
        ended = subprocess.run([str(program)], input=data, stdout=subprocess.PIPE, timeout=MOST_SECONDS)
    except FileNotFoundError:
        raise Problem("no program at %s: %s" % (program, BUILDS))
    except OSError as error:
        raise Problem("%s cannot be run: %s; %s" % (program, error.strerror, BUILDS))
    except subprocess.TimeoutExpired:
        raise Problem("%s did not end in %d s" % (program, MOST_SECONDS))
    if ended.returncode:
        raise Problem("%s ended with status %d" % (program, ended.returncode))
    return ended.stdout.decode("ascii", "replace").split("\n")[:-1]


def drawn(image):
    """The lines of runlist that stand in a picture, lane by lane."""
    texts = ElementTree.fromstring(image).iter("{http://www.w3.org/2000/svg}text")
    return [text.text for text in texts if text.get("class") == "line"]


def same(found, expected, finder, teller):
    """Two lists of lines are the same, or the first difference is told."""
    for nth in range(max(len(found), len(expected))):
        pair = [lines[nth] if nth < len(lines) else "nothing" for lines in (found, expected)]
        if pair[0] != pair[1]:
            raise Problem("no picture: line %d is `%s` %s, and `%s` %s" % (nth + 1, pair[0], finder, pair[1], teller))


def checked_picture(data, name, program):
    """The picture of a schedule's run, every line in it as the program prints it."""
    lines = printed(program, data)
    run = Run(data)
    same(run.lines(), lines, "in the reference", "as %s prints it" % program)
    if run.columns > MOST_COMMANDS:
        raise Problem("no picture: the run has %d commands, and at most %d are drawn" % (run.columns, MOST_COMMANDS))
    image = picture(run, name)
    same(sorted(drawn(image)), sorted(map(drawn_line, lines)), "in the picture", "as %s prints it" % program)
    return image
