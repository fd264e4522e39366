"""From words to bytes: a schedule as text becomes what runlist takes on standard input."""

import re

from .lines import (FIRST_RECORD, HEADER, KINDS, LEND, LENGTH, MOST_REPEATS, RAW, WIDTHS, Problem, is_number, number,
                    packed, start)
from .match import form_of

TOKEN = re.compile(r'\s+|#.*|("[^"]*"|[^\s"#]+)')
MOST_BASES, MOST_LENT = 255, 65535


def tokens(line):
    """The words of a line, without its comment. Text in quotes is one word and keeps them."""
    found, at = [], 0
    while at < len(line):
        match = TOKEN.match(line, at)
        if not match:
            raise Problem("the quotes are not closed")
        at = match.end()
        if match.group(1):
            found.append(match.group(1))
    return found


def repeated(words):
    """The words before a final `x N`, and N; without one, all words and None."""
    if len(words) < 3 or words[-2] != "x" or not is_number(words[-1]):
        return words, None
    if not 1 <= int(words[-1]) <= MOST_REPEATS:
        raise Problem("`x %s` is out of range: a line is repeated 1 to %d times" % (words[-1], MOST_REPEATS))
    return words[:-2], int(words[-1])


def hexadecimal(words):
    for word in words:
        if not re.fullmatch("([0-9a-fA-F]{2})+", word):
            raise Problem("`%s` is no hexadecimal: a byte is two digits of it" % word)
    return bytes.fromhex("".join(words))


def bases(words):
    if len(words) > MOST_BASES:
        raise Problem("%d bases: at most %d can be told" % (len(words), MOST_BASES))
    return bytes([len(words)]) + b"".join(packed(number(word, "base"), "base") for word in words)


def record(words):
    """Text in quotes, or `hex` and bytes."""
    if words and words[0] == "hex":
        return hexadecimal(words[1:])
    if len(words) != 1 or not words[0].startswith('"'):
        raise Problem('a record is text in quotes, as "aa", or `hex` and bytes, as hex 6161')
    if not all(" " <= letter <= "~" for letter in words[0]):
        raise Problem("text in quotes is plain ASCII: write this record as `hex` and bytes")
    return words[0][1:-1].encode("ascii")


LISTS = {"bases": bases, "record": record, "bytes": hexadecimal}


def spelled(form, words):
    """The bytes of a line's numbers, or of its list."""
    out = b""
    for place, part in enumerate(form.split()):
        name = part[1:-1]
        if part.startswith("<"):
            out += packed(number(words[place], name), name) if name in WIDTHS else LISTS[name](words[place:])
    return out


class Spelling:
    """A schedule on its way from words to bytes. The header's lines come in the order of their bytes; `bytes` before it
    is whole stand for the rest of it."""

    def __init__(self):
        self.header, self.lent, self.commands = b"", [], bytearray()
        self.lines = {}  # the header's lines, and where they stand
        self.raw = self.begun = False  # whether bytes stand for the rest of the header; whether its lines are over
        self.length = None  # of a record

    def take(self, line, at):
        words, times = repeated(tokens(line))
        if not words:
            return
        form = form_of(tuple(words))
        if form in HEADER:
            self.take_header(form, words, times, at)
        else:
            self.begin(form)
            kind = b"" if form == RAW else bytes([KINDS[form]])
            self.commands += (kind + spelled(form, words)) * (times or 1)

    def take_header(self, form, words, times, at):
        if form != LEND and form in self.lines:
            raise Problem("`%s` stands twice: first in line %d" % (start(form), self.lines[form]))
        if self.begun:
            raise Problem("`%s` is of the header, and the header is over" % start(form))
        if form != LEND and times is not None:
            raise Problem("`%s` is not repeated: only commands and `lend` are" % start(form))
        self.need(HEADER[:HEADER.index(form)], "`%s`" % start(form))
        self.lines[form] = at
        body = spelled(form, words)
        if form == LENGTH:
            self.length = int.from_bytes(body, "big")
        if form in (FIRST_RECORD, LEND) and len(body) != self.length:
            raise Problem("a record of %d bytes: `%s` says %d" % (len(body), start(LENGTH), self.length))
        if form != LEND:
            self.header += body
        elif len(self.lent) + (times or 1) > MOST_LENT:
            raise Problem("more than %d records are lent" % MOST_LENT)
        else:
            self.lent += [body] * (times or 1)

    def need(self, forms, what):
        """These lines of the header come before something; lent records need not be."""
        for form in forms:
            if form != LEND and form not in self.lines:
                raise Problem("`%s` is missing: it comes before %s" % (start(form), what))

    def begin(self, form):
        """The first command, or what stands for one."""
        if not self.begun and form == RAW and FIRST_RECORD not in self.lines:
            self.raw = True
        elif not self.raw:
            self.need(HEADER, "the first command")
        self.begun = True

    def end(self):
        if not self.begun:
            self.need(HEADER, "the end")

    def bytes(self):
        lent = b"" if self.raw else len(self.lent).to_bytes(2, "big") + b"".join(self.lent)
        return self.header + lent + bytes(self.commands)


def bytes_of(text, name):
    """The bytes of a schedule. A problem tells its name and the number of its line."""
    spelling, at = Spelling(), 0
    try:
        for at, line in enumerate(text.rstrip("\n").split("\n"), 1):
            spelling.take(line, at)
        spelling.end()
    except Problem as problem:
        raise Problem("%s:%d: %s" % (name, at, problem))
    return spelling.bytes()
