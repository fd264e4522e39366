"""From bytes to words: what runlist takes on standard input becomes a schedule as text."""

from collections import namedtuple
from itertools import groupby

from .lines import (BASES, COMMANDS, FIRST_COUNT, FIRST_RECORD, LEND, LENGTH, MOST_REPEATS, RAW, READERS, VERSION,
                    WIDTHS, fields, start, width)

Command = namedtuple("Command", "kind numbers data")  # kind None: bytes that are no whole command, up to the end
A_LINE = 16  # bytes that are no words are told so many on a line


def number(data):
    return int.from_bytes(data, "big")


def numbers(form, data):
    """The numbers of a line, from its bytes."""
    found, at = [], 0
    for name in fields(form):
        found.append(number(data[at:at + WIDTHS[name]]))
        at += WIDTHS[name]
    return found


def filled(form, values):
    """A line with numbers in their places."""
    values = iter(values)
    return " ".join(str(next(values)) if part.startswith("<") else part for part in form.split())


def record_words(record):
    if all(0x20 <= byte <= 0x7E and byte != 0x22 for byte in record):
        return '"%s"' % record.decode("ascii")
    return "hex " + record.hex()


def commands(data):
    """Take commands apart; an unknown kind and a body cut short are one piece with all that follows."""
    at = 0
    while at < len(data):
        form = COMMANDS.get(data[at])
        end = at + 1 + width(form) if form else len(data) + 1
        if end > len(data):
            yield Command(None, [], data[at:])
            return
        yield Command(data[at], numbers(form, data[at + 1:end]), data[at:end])
        at = end


def command_words(command):
    """A whole command in words."""
    return filled(COMMANDS[command.kind], command.numbers)


def raw_words(data):
    """Lines of bytes; one even for no byte, since it tells where a header ends."""
    pieces = [data[at:at + A_LINE] for at in range(0, max(1, len(data)), A_LINE)]
    return folded(" ".join([start(RAW)] + ["%02x" % byte for byte in piece]) for piece in pieces)


def header_parts(data):
    """The header's lines up to the first count, as far as they are whole, each with its bytes."""
    at = 0
    for form in (BASES, VERSION, LENGTH, READERS, FIRST_COUNT):
        end = at + (1 + 2 * number(data[:1]) if form == BASES else width(form))
        if end > len(data):
            return
        yield form, data[at:end]
        at = end


def records(data, length):
    """The first record, the lent ones, and how many bytes these take; None if they are cut short."""
    at = length + 2
    size = number(data[length:at])
    end = at + size * length
    if end > len(data):
        return None
    return data[:length], [data[at + i * length:at + (i + 1) * length] for i in range(size)], end


def part_words(form, body):
    if form == BASES:
        return " ".join([start(BASES)] + [str(number(body[i:i + 2])) for i in range(1, len(body), 2)])
    return filled(form, numbers(form, body))


def header_words(data):
    """The lines of a header, and where it ends. Of one that is cut short, the lines that are whole, up to the first
    count, the rest in bytes, and None."""
    parts = dict(header_parts(data))
    lines, at = [part_words(*part) for part in parts.items()], sum(map(len, parts.values()))
    found = records(data[at:], number(parts[LENGTH])) if FIRST_COUNT in parts else None
    if found is None:
        return lines + ["# the header is cut short"] + raw_words(data[at:]), None
    first, lent, length = found
    lines.append("%s %s" % (start(FIRST_RECORD), record_words(first)))
    lines += folded("%s %s" % (start(LEND), record_words(record)) for record in lent)
    return lines, at + length


def folded(lines):
    """Runs of equal lines become one with `x N`."""
    out = []
    for line, run in groupby(lines):
        left = sum(1 for _ in run)
        while left:
            times = min(left, MOST_REPEATS)
            out.append(line if times == 1 else "%s x %d" % (line, times))
            left -= times
    return out


def words_of(data):
    """The text of an input, whole or damaged; `bytes_of` makes the same input of it."""
    lines, at = header_words(data)
    if at is not None:
        found = list(commands(data[at:]))
        rest = found.pop() if found and found[-1].kind is None else None
        lines += [""] * bool(found or rest) + folded(map(command_words, found))
        if rest:
            known = rest.data[0] in COMMANDS
            lines.append("# a command cut short" if known else "# an unknown command, and what follows it")
            lines += raw_words(rest.data)
    return "\n".join(lines) + "\n"
