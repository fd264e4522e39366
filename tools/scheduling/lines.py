"""The lines of a schedule: the words that stand on them, and the bytes that they stand for."""

import re

# A name in brackets is a number, or a list that takes the rest of its line. Numbers stand in the order of their bytes.
HEADER = (
    "count bases <bases>",
    "version places <places> base <base>",
    "record bytes <length>",
    "readers <readers>",
    "first count <count>",
    "first record <record>",
    "lend <record>",
)
BASES, VERSION, LENGTH, READERS, FIRST_COUNT, FIRST_RECORD, LEND = HEADER
COMMANDS = {
    0x01: "write count <count>",
    0x02: "write record <index>",
    0x03: "writer step",
    0x04: "reader <reader> begin count",
    0x0D: "reader <reader> begin count high",
    0x05: "reader <reader> begin record <attempts>",
    0x06: "reader <reader> step",
    0x07: "reader <reader> cancel",
}
RAW = "bytes <bytes>"
KINDS = {form: kind for kind, form in COMMANDS.items()}
FORMS = HEADER + tuple(COMMANDS.values()) + (RAW,)

WIDTHS = {"places": 1, "base": 2, "length": 2, "readers": 1, "count": 8, "index": 2, "reader": 1, "attempts": 1}
MOST_REPEATS = 65537  # one more than the bytes that runlist takes


class Problem(Exception):
    """What is wrong, in words for people."""


def fields(form):
    """The names of a line's numbers and lists."""
    return re.findall(r"<(\w+)>", form)


def start(form):
    """A line's first words, by which people know it."""
    return form.split(" <")[0]


def width(form):
    """How many bytes a line's numbers take."""
    return sum(WIDTHS[name] for name in fields(form))


def most(name):
    return 256 ** WIDTHS[name] - 1


def is_number(word):
    return re.fullmatch("[0-9]{1,40}", word) is not None


def number(word, name):
    """A number in decimal digits that its bytes can hold."""
    if not is_number(word):
        raise Problem("`%s` is no number" % word)
    if int(word) > most(name):
        raise Problem("%s is out of range: %s goes from 0 to %d" % (word, name, most(name)))
    return int(word)


def packed(x, name):
    return x.to_bytes(WIDTHS[name], "big")
