#!/usr/bin/env python3
"""Print the run of a schedule, as the program `runlist` must. This is a second implementation in plain Python, written from
documents 01 and 02; it shares nothing with the proved code, so that a fault in one is seen against the other. It reads
standard input; `printed` does the same for bytes in memory. The program has plain pages only; the page here can be folded
too, for those who name that layout."""

import sys
from collections import deque, namedtuple

MOST_INPUT = 65536
BODY_LENGTH = {1: 8, 2: 2, 3: 0, 4: 1, 5: 2, 6: 1, 7: 1, 13: 1}  # by the command's kind
WRITE_COUNT, WRITE_RECORD, WRITER_STEP, READ_COUNT, READ_RECORD, READER_STEP, CANCEL = range(1, 8)
READ_COUNT_HIGH = 13  # READ_COUNT names no end, and this the high one
LOW, HIGH = range(2)  # the choices of a count read: which end it shows where its copies differ
PLAIN, FOLDED = range(2)  # the layouts

Form = namedtuple("Form", "bases q version_base n readers layout")
Ended = namedtuple("Ended", "reader told choice")  # a count read: what `ends` made of it, and the choice it was begun with


class Refusal(Exception):
    """Carries document 01's number of the refusal."""

    def __init__(self, number):
        super().__init__(number)
        self.number = number


def need(condition, number):
    if not condition:
        raise Refusal(number)


def number(data):
    return int.from_bytes(data, "big")


def product(bases):
    result = 1
    for base in bases:
        result *= base
    return result


def value(digits, bases):
    result = 0
    for digit, base in zip(digits, bases):
        result = result * base + digit
    return result


def digits_of(x, bases):
    digits = []
    for base in reversed(bases):
        x, digit = divmod(x, base)
        digits.append(digit)
    return digits[::-1]


def ends(a, b, bases):
    """What a count read tells that gathered the digits a from c1 and b from c2: their count if they are equal, and else the
    low end, the last count that begins as a does up to where they part, and the high end, the first that begins as b does."""
    p = 0
    while p < len(bases) and a[p] == b[p]:
        p += 1
    if p == len(bases):
        return [value(a, bases)]
    need(a[p] < b[p], 10)
    after = bases[p + 1:]
    low, high = a[:p + 1] + [base - 1 for base in after], b[:p + 1] + [0] * len(after)
    return [value(low, bases), value(high, bases)]


def shown(ended):
    """The one count that a count read shows: of equal copies theirs, else the end that its choice names. No line tells it."""
    return ended.told[-1 if ended.choice == HIGH else 0]


class Cell:
    """A byte of the page. On a folded page one cell is the last of both copies."""

    def __init__(self, byte):
        self.byte = byte


def cells(data):
    return [Cell(byte) for byte in data]


def held(row):
    return [cell.byte for cell in row]


class Read:
    """An unfinished read: the cells still to be loaded, each with the places that take its byte."""

    def __init__(self, allowed, choice):
        self.allowed = allowed  # attempts; 0 marks a count read
        self.choice = choice  # of a count read; LOW in a record read
        self.finished = 0
        self.loads = deque()


class Page:
    """The page, its writer and its readers, as an opening leaves them and single commands change them."""

    def __init__(self, form, count, record, records):
        self.form, self.records = form, records
        self.version_bases = [form.version_base] * form.q
        self.most_counts, self.most_versions = product(form.bases), product(self.version_bases)
        need(count < self.most_counts, 4)
        self.c1, self.c2 = cells(digits_of(count, form.bases)), cells(digits_of(count, form.bases))
        if form.layout == FOLDED:
            self.c2[-1] = self.c1[-1]
        self.v1, self.v2 = cells(bytes(form.q)), cells(bytes(form.q))
        self.record = cells(record)
        self.stores = deque()  # the cells that the write in progress has still to fill, each with its byte
        self.reads = [None] * form.readers
        self.buffers = [bytearray(form.n) for _ in range(form.readers)]
        self.ended = []  # the count reads that came to their ends, in order

    def bytes(self):
        own = [cell for cell in self.c2 if cell is not self.c1[-1]]
        return bytes(held(self.c1 + own + self.v1 + self.record + self.v2))

    def count(self):
        return value(held(self.c2), self.form.bases)

    def version(self):
        return value(held(self.v1), self.version_bases)

    def choice(self, reader):
        """What a reader's station keeps of a choice: LOW where no count read is unfinished."""
        return LOW if self.reads[reader] is None else self.reads[reader].choice

    def carry_out(self, kind, body):
        """Carry out one whole command; give the line that it prints, or None."""
        if kind == WRITE_COUNT:
            return self.begin_count_write(number(body))
        if kind == WRITE_RECORD:
            return self.begin_record_write(number(body))
        if kind == WRITER_STEP:
            need(self.stores, 7)
            cell, byte = self.stores.popleft()
            cell.byte = byte
            return None
        reader = body[0]
        need(reader < self.form.readers, 8)
        if kind == READ_RECORD:
            need(body[1] > 0, 8)
        if kind in (READ_COUNT, READ_COUNT_HIGH, READ_RECORD):
            need(self.reads[reader] is None, 6)
            return self.begin_read(reader, body[1] if kind == READ_RECORD else 0, HIGH if kind == READ_COUNT_HIGH else LOW)
        need(self.reads[reader] is not None, 7)
        if kind == READER_STEP:
            return self.reader_step(reader)
        self.reads[reader] = None  # cancelled; the buffer keeps its bytes
        return None

    def begin_count_write(self, count):
        need(not self.stores, 6)
        need(count < self.most_counts, 4)
        need(count >= self.count(), 5)
        digits = digits_of(count, self.form.bases)
        self.stores.extend(zip(self.c2, digits))
        # The cell that the copies share was just filled, as the last of c2.
        self.stores.extend((cell, byte) for cell, byte in zip(self.c1[::-1], digits[::-1]) if cell is not self.c2[-1])

    def begin_record_write(self, index):
        need(index < len(self.records), 8)
        need(not self.stores, 6)
        need(self.version() < self.most_versions - 1, 9)
        digits = digits_of(self.version() + 1, self.version_bases)
        self.stores.extend(zip(self.v1, digits))
        self.stores.extend(zip(self.record, self.records[index]))
        self.stores.extend(zip(self.v2[::-1], digits[::-1]))

    def begin_read(self, reader, allowed, choice):
        self.reads[reader] = read = Read(allowed, choice)
        if allowed:
            self.begin_attempt(reader)
        else:
            places = range(len(self.form.bases))
            read.a, read.b = [0] * len(places), [0] * len(places)
            for i in places:  # a digit that the copies share is one of a and one of b, and is loaded once
                both = [read.a, read.b] if self.c1[i] is self.c2[i] else [read.a]
                read.loads.append((self.c1[i], i, both))
            read.loads.extend((self.c2[i], i, [read.b]) for i in reversed(places) if self.c2[i] is not self.c1[i])

    def begin_attempt(self, reader):
        read, places = self.reads[reader], range(self.form.q)
        read.v1, read.v2 = [0] * self.form.q, [0] * self.form.q
        read.loads.extend((self.v2[i], i, [read.v2]) for i in places)
        read.loads.extend((cell, i, [self.buffers[reader]]) for i, cell in enumerate(self.record))
        read.loads.extend((self.v1[i], i, [read.v1]) for i in reversed(places))

    def reader_step(self, reader):
        read = self.reads[reader]
        cell, i, targets = read.loads.popleft()
        for target in targets:
            target[i] = cell.byte
        if read.loads:
            return None
        if not read.allowed:
            told = ends(read.a, read.b, self.form.bases)
            self.ended.append(Ended(reader, told, read.choice))
            self.reads[reader] = None
            return " ".join(map(str, ["C" if len(told) == 1 else "B", reader] + told))
        read.finished += 1
        if read.v1 == read.v2:
            self.reads[reader] = None
            version = value(read.v1, self.version_bases)
            return "R %d %d %d %s" % (reader, read.finished, version, self.buffers[reader].hex())
        if read.finished < read.allowed:
            return self.begin_attempt(reader)
        self.reads[reader] = None
        self.buffers[reader] = bytearray(self.form.n)  # no torn bytes stay behind
        return "G %d %d" % (reader, read.finished)


def opened(data, layout=PLAIN):
    """Check the header in document 01's order; give the opened page and where the commands begin. No header tells the
    layout."""
    need(len(data) <= MOST_INPUT, 2)
    need(not data or 1 <= data[0] <= 8, 1)
    need(data and len(data) >= 2 * data[0] + 7, 2)
    at = 1

    def take(length):
        nonlocal at
        at += length
        return data[at - length:at]

    bases = [number(take(2)) for _ in range(data[0])]
    form = Form(bases, number(take(1)), number(take(2)), number(take(2)), number(take(1)), layout)
    need(all(2 <= base <= 256 for base in bases + [form.version_base]), 1)
    need(1 <= form.q <= 4 and 1 <= form.n <= 256 and 1 <= form.readers <= 16, 1)
    need(len(data) >= at + 8 + form.n + 2, 2)
    count, record, size = number(take(8)), take(form.n), number(take(2))
    need(len(data) >= at + size * form.n, 2)
    records = [take(form.n) for _ in range(size)]
    return Page(form, count, record, records), at


def run(page, commands):
    """Carry out the commands up to the first refused one; give lines, commands carried out, and the refusal or 0."""
    lines, done, at = [], 0, 0
    try:
        while at < len(commands):
            kind = commands[at]
            need(kind in BODY_LENGTH, 11)
            body = commands[at + 1:at + 1 + BODY_LENGTH[kind]]
            need(len(body) == BODY_LENGTH[kind], 11)
            line = page.carry_out(kind, body)
            if line is not None:
                lines.append(line)
            done += 1
            at += 1 + len(body)
    except Refusal as refusal:
        return lines, done, refusal.number
    return lines, done, 0


def printed(data, layout=PLAIN):
    """All that `runlist` prints for this standard input; and what it would print if its pages were folded."""
    try:
        page, at = opened(data, layout)
    except Refusal as refusal:
        return "END 0 %d\n" % refusal.number
    lines, done, refusal = run(page, data[at:])
    return "".join(line + "\n" for line in lines + ["END %d %d" % (done, refusal)])


if __name__ == "__main__":
    sys.stdout.write(printed(sys.stdin.buffer.read()))
