#!/usr/bin/env python3
"""Make inputs of `runlist` from a seed: good schedules, refused ones and damaged ones. `make(seed)` gives the bytes, the same
for a seed on every Python from 3.5 on (only `randrange` is drawn from), and `kind(seed)` the name of its kind. The functions
that spell header and commands serve the hand-made cases too. Good schedules are grown by carrying each command out on the
reference page as it is chosen, so that they make progress. Some kinds are told a layout: a count takes another number of steps
on a folded page. `inputs.py SEED` writes one input to standard output."""

import random
import sys

from runlist import BODY_LENGTH, MOST_INPUT, PLAIN, Form, Page, number, product

# Spelling of header and commands.


def two(x):
    return x.to_bytes(2, "big")


def header(bases=(10,), q=1, version_base=10, n=1, readers=1, count=0, first=None, records=(), size=None):
    """A header; the first record is zeros, and the size the number of records, if not given."""
    return (bytes([len(bases)]) + b"".join(map(two, bases)) + bytes([q]) + two(version_base) + two(n) + bytes([readers])
            + count.to_bytes(8, "big") + (bytes(n) if first is None else first)
            + two(len(records) if size is None else size) + b"".join(records))


def write_count(count):
    return b"\x01" + count.to_bytes(8, "big")


def write_record(index):
    return b"\x02" + two(index)


WRITER = b"\x03"


def read_count(reader):
    return bytes([4, reader])


def read_count_high(reader):
    return bytes([13, reader])


def read_record(reader, attempts):
    return bytes([5, reader, attempts])


def step(reader):
    return bytes([6, reader])


def cancel(reader):
    return bytes([7, reader])


# The input that document 01 prints.
DOCUMENT_RUN = bytes.fromhex(
    "01 000A 01 000A 0002 01 0000000000000004 6161 0001 6262"
    "050002 0600 0600 020000 03 03 03 0600 0600 03 0600 0600 0600 0600 010000000000000007 0400 0600 03 03 0600")

# Random choices.


def pick(rng, items):
    return items[rng.randrange(len(items))]


def between(rng, low, high):
    return low + rng.randrange(high - low + 1)


def some_bytes(rng, length):
    return bytes(rng.randrange(256) for _ in range(length))


def some_count_read(rng, reader):
    """A count read begins, as often with the high end named as without a choice."""
    return pick(rng, (read_count, read_count_high))(reader)


def unknown_kind(rng):
    """A byte that is no command's kind: most often one next to those that are."""
    return pick(rng, (0, 8, 9, 10, 11, 12, 14, 15, between(rng, 16, 255), 255))


def some_form(rng, m=None, bases=None, q=None, version_base=None, n=None, readers=None, layout=PLAIN):
    """A form with what is given, and the rest drawn so that small numbers and the ends of the ranges are frequent."""
    most = pick(rng, (2, 3, 10, 60, 256))
    bases = bases or [between(rng, 2, most) for _ in range(m or between(rng, 1, pick(rng, (1, 3, 3, 8))))]
    return Form(bases, q or between(rng, 1, pick(rng, (1, 2, 4))), version_base or pick(rng, (2, 3, 10, 255, 256)),
                n or pick(rng, (1, 2, 3, 3, 5, 8, between(rng, 1, 40))), readers or pick(rng, (1, 2, 3, 3, 4, 16)), layout)


class Schedule:
    """Commands that are all carried out, grown one by one."""

    def __init__(self, rng, form, count=None, size=None):
        self.rng, self.form = rng, form
        top = product(form.bases)
        if count is None:
            count = rng.randrange(top) // pick(rng, (1, 2, top))
        first = some_bytes(rng, form.n)
        records = [some_bytes(rng, form.n) for _ in range(between(rng, 1, 5) if size is None else size)]
        self.page = Page(form, count, first, records)
        self.head = header(form.bases, form.q, form.version_base, form.n, form.readers, count, first, records)
        self.commands = bytearray()

    def bytes(self):
        return self.head + bytes(self.commands)

    def add(self, command):
        at = 0
        while at < len(command):
            body = command[at + 1:at + 1 + BODY_LENGTH[command[at]]]
            self.page.carry_out(command[at], body)
            at += 1 + len(body)
        self.commands += command

    def some_count(self):
        """A count that can be written: often one that carries, or one below such, or one with another last digit alone."""
        now, top, last = self.page.count(), self.page.most_counts, self.form.bases[-1]
        weight = product(self.form.bases[1 + self.rng.randrange(len(self.form.bases)):])
        carried = (now // weight + 1) * weight
        wanted = pick(self.rng, (now, now + 1, between(self.rng, now, now // last * last + last - 1), carried, carried - 1,
                                 carried + self.rng.randrange(top - now), between(self.rng, now, top - 1),
                                 now + self.rng.randrange(1 + weight)))
        return wanted if now <= wanted < top else min(now + 1, top - 1)

    def can_write_record(self):
        return self.page.records and self.page.version() < self.page.most_versions - 1

    def begin_write(self, records):
        """Begin a write of a record, if `records` of 4 fall so and one can be written, and else of a count."""
        if self.rng.randrange(4) < records and self.can_write_record():
            self.add(write_record(self.rng.randrange(len(self.page.records))))
        else:
            self.add(write_count(self.some_count()))

    def begin_read(self, reader, records):
        if self.rng.randrange(4) < records:
            self.add(read_record(reader, pick(self.rng, (1, 1, 2, 2, 3, 3, 4, 255))))
        else:
            self.add(some_count_read(self.rng, reader))

    def burst(self, left):
        """How many of the steps left to take at once: mostly one, sometimes just not all. Sometimes one copy of a count is
        left, for its last digit is the last stored or loaded of one copy and the first of the other: copies part there alone
        if the other side stops in between."""
        copy = len(self.form.bases)
        return min(left, max(1, pick(self.rng, (1, 1, 1, 2, left - copy, left - 1, left, between(self.rng, 1, left)))))

    def writer_acts(self, records):
        if self.page.stores:
            self.add(WRITER * self.burst(len(self.page.stores)))
        else:
            self.begin_write(records)

    def reader_acts(self, reader, records):
        read = self.page.reads[reader]
        if read is None:
            self.begin_read(reader, records)
        elif self.rng.randrange(40) == 0:
            self.add(cancel(reader))
        else:
            self.add(step(reader) * self.burst(len(read.loads)))

    def grow(self, acts, records, writes=4):
        """Interleave: of ten acts, `writes` are the writer's; `records` of 4 reads and writes are of records."""
        for _ in range(acts):
            if self.rng.randrange(10) < writes:
                self.writer_acts(records)
            else:
                self.reader_acts(self.rng.randrange(self.form.readers), records)
        return self

    def finish_write(self):
        self.add(WRITER * len(self.page.stores))

    def finish_reads(self):
        """Let readers that have begun come to their ends; those with many attempts left may stay unfinished."""
        for reader, read in enumerate(self.page.reads):
            if read is not None:
                self.add(step(reader) * len(read.loads))


# The kinds of inputs. Each function takes the random source and gives an input.


def count_race(rng, layout=PLAIN):
    """Count reads meet count writes that carry."""
    bases = [between(rng, 2, pick(rng, (2, 3, 10))) for _ in range(between(rng, 2, 5))]
    form = some_form(rng, bases=bases, n=1, layout=layout)
    return Schedule(rng, form).grow(between(rng, 10, pick(rng, (60, 120, 400))), 0).bytes()


def wide_race(rng, layout=PLAIN):
    """Count reads of the widest counts meet count writes: eight places of base 256."""
    form = some_form(rng, bases=[256] * 8, n=1, readers=between(rng, 1, 3), layout=layout)
    return Schedule(rng, form).grow(between(rng, 20, pick(rng, (60, 120, 400))), 0).bytes()


def record_race(rng):
    """Record attempts are torn, accepted at once or after a retry, given up or cancelled."""
    form = some_form(rng, m=1, n=between(rng, 1, 6))
    return Schedule(rng, form).grow(between(rng, 10, pick(rng, (60, 150, 400))), 4, writes=between(rng, 2, 6)).bytes()


def mixed(rng, layout=PLAIN):
    """Both sorts of reads and writes by all readers."""
    schedule = Schedule(rng, some_form(rng, layout=layout)).grow(between(rng, 1, pick(rng, (20, 120, 400))), 2)
    if rng.randrange(2):
        schedule.finish_write()
        schedule.finish_reads()
    return schedule.bytes()


def large_form(rng, layout=PLAIN):
    """Many places, bases up to 256, long records, many readers."""
    bases = [pick(rng, (256, 256, 255, between(rng, 2, 256))) for _ in range(between(rng, 6, 8))]
    form = some_form(rng, bases=bases, q=between(rng, 3, 4), version_base=pick(rng, (255, 256, between(rng, 2, 256))),
                     n=pick(rng, (255, 256, between(rng, 40, 256))), readers=between(rng, 8, 16), layout=layout)
    return Schedule(rng, form, size=between(rng, 1, 2)).grow(between(rng, 10, 100), 2).bytes()


def torn(rng):
    """The writer moves inside every attempt, so that reads are given up or need their last attempts."""
    form = some_form(rng, m=1, q=between(rng, 1, 2), version_base=pick(rng, (3, 10, 256)), n=between(rng, 2, 4), readers=2)
    schedule = Schedule(rng, form)
    whole = 2 * form.q + form.n
    for _ in range(between(rng, 1, 6)):
        reader = rng.randrange(2)
        if schedule.page.reads[reader] is None:
            schedule.add(read_record(reader, pick(rng, (1, 2, 3, 5, 12))))
        while schedule.page.reads[reader] is not None and schedule.can_write_record():
            if rng.randrange(6) == 0:  # now and then an attempt is left alone
                schedule.finish_write()
                schedule.finish_reads()
                continue
            schedule.add(step(reader) * min(between(rng, 1, whole - 1), len(schedule.page.reads[reader].loads)))
            if not schedule.page.stores:
                schedule.begin_write(4)
            schedule.add(WRITER * between(rng, 1, len(schedule.page.stores)))
    return schedule.bytes()


def spent(rng):
    """Versions run up to their top, with reads in between; mostly one more record write is then refused by 9."""
    q = between(rng, 1, 3)
    form = some_form(rng, m=1, q=q, version_base=between(rng, 2, (10, 3, 2)[q - 1]), n=between(rng, 1, 3))
    schedule = Schedule(rng, form)
    while schedule.can_write_record():
        while schedule.can_write_record():
            schedule.grow(between(rng, 1, 4), 3, writes=8)
        schedule.finish_write()  # v1 may have passed through its top on the way to a lower version
    if rng.randrange(4):
        return schedule.bytes() + write_record(0) + schedule_tail(rng)
    return schedule.grow(10, 4).bytes()


def schedule_tail(rng):
    """What may follow a refused command: it must not matter."""
    return pick(rng, (b"", WRITER, step(0), some_count_read(rng, 0) + step(0) * 2, some_bytes(rng, 3)))


def refused(rng, layout=PLAIN):
    """A good schedule, a command that is refused, and something after it."""
    form = some_form(rng, layout=layout)
    schedule = Schedule(rng, form).grow(between(rng, 0, 40), 2)
    page, reader = schedule.page, rng.randrange(form.readers)
    refusal = pick(rng, (4, 5, 6, 7, 8, 11))
    if refusal == 4:
        schedule.finish_write()
        last = 2**64 - 1
        if page.most_counts > last:
            return schedule.bytes()
        command = write_count(pick(rng, (page.most_counts, between(rng, page.most_counts, last), last)))
    elif refusal == 5:
        schedule.finish_write()
        if page.count() == 0:
            schedule.add(write_count(between(rng, 1, page.most_counts - 1)))
            schedule.finish_write()
        command = write_count(pick(rng, (0, page.count() - 1, rng.randrange(page.count()))))
    elif refusal == 6:
        if rng.randrange(2):
            if not page.stores:
                schedule.begin_write(2)
            command = pick(rng, (write_count(page.count()), write_record(0)))
        else:
            if page.reads[reader] is None:
                schedule.begin_read(reader, 2)
            command = pick(rng, (read_count(reader), read_count_high(reader), read_record(reader, between(rng, 1, 255))))
    elif refusal == 7:
        if rng.randrange(2):
            schedule.finish_write()
            command = WRITER
        else:
            if page.reads[reader] is not None:
                schedule.add(cancel(reader))
            command = pick(rng, (step(reader), cancel(reader)))
    elif refusal == 8:
        absent = pick(rng, (form.readers, between(rng, form.readers, 255), 255))
        beyond = pick(rng, (len(page.records), between(rng, len(page.records), 65535), 65535))
        command = pick(rng, (read_count(absent), read_count_high(absent), read_record(absent, 1), step(absent),
                             cancel(absent), write_record(beyond), read_record(reader, 0)))
    else:
        command = bytes([unknown_kind(rng)])
        if rng.randrange(2):
            return schedule.bytes() + pick(rng, (  # cut, so nothing can follow
                write_count(page.count())[:between(rng, 1, 8)], write_record(0)[:between(rng, 1, 2)],
                read_count(reader)[:1], read_count_high(reader)[:1], read_record(reader, 1)[:between(rng, 1, 2)],
                step(reader)[:1], cancel(reader)[:1]))
    return schedule.bytes() + command + schedule_tail(rng)


def two_refusals(rng, layout=PLAIN):
    """A command to which two refusals apply; the order of the checks decides."""
    form = some_form(rng, q=1, version_base=2, layout=layout)
    schedule = Schedule(rng, form).grow(between(rng, 0, 10), 2)
    page, reader, absent = schedule.page, rng.randrange(form.readers), between(rng, form.readers, 255)
    if not page.stores:
        schedule.begin_write(4)
    if page.reads[reader] is None:
        schedule.begin_read(reader, 2)
    over = min(page.most_counts, 2**64 - 1)
    command = pick(rng, (write_count(over), write_count(0), write_record(len(page.records)), write_record(0),
                         read_record(reader, 0), read_record(absent, 0), read_record(absent, 0)[:2],
                         read_count(reader)[:1], read_count_high(reader)[:1], write_record(65535)[:2],
                         write_count(over)[:8], step(absent), cancel(absent)))
    return schedule.bytes() + command


def noise(rng):
    """A good header, and commands drawn without regard to the page."""
    schedule = Schedule(rng, some_form(rng, n=between(rng, 8, 40), readers=between(rng, 1, 2)))
    out = bytearray(schedule.head + write_record(0) + read_record(0, 255))
    for _ in range(between(rng, 1, 60)):
        if rng.randrange(8):
            out += pick(rng, (WRITER, step(0), step(0)))
        else:
            reader = rng.randrange(2)
            out += pick(rng, (step(reader), some_count_read(rng, reader), cancel(reader),
                              read_record(reader, rng.randrange(4)), write_record(rng.randrange(4)),
                              write_count(rng.randrange(20)), some_bytes(rng, 1)))
    return bytes(out)


def damaged(rng):
    """A good input with a byte changed, cut at any place, or with bytes appended: an unknown command, or any."""
    data = bytearray(pick(rng, (count_race, record_race, mixed, spent))(rng))
    sort = rng.randrange(4)
    if sort == 0:
        data[rng.randrange(len(data))] = pick(rng, (0, 255, rng.randrange(256), rng.randrange(16)))
    elif sort == 1:  # the header is short, so that changes in it need a draw of their own
        data[rng.randrange(24)] = rng.randrange(256)
    elif sort == 2:
        data = data[:rng.randrange(len(data))]
    else:
        data += bytes([unknown_kind(rng)] * rng.randrange(2)) + some_bytes(rng, between(rng, 1, 12))
    return bytes(data)


def bad_header(rng):
    """A header with a number out of its range, or with two; whole, or cut too."""
    fields = {"bases": [10, 10], "q": 1, "version_base": 10, "n": 2, "readers": 2, "count": 5}
    wrong = {"bases": ([1, 10], [10, 257], [0, 10], [10, 65535], [2] * 9, [256] * 9, []), "q": (0, 5, 255),
             "version_base": (0, 1, 257, 65535), "n": (0, 257, 65535), "readers": (0, 17, 255), "count": (100, 2**64 - 1)}
    for _ in range(between(rng, 1, 2)):
        field = pick(rng, sorted(wrong))
        fields[field] = pick(rng, wrong[field])
    data = header(first=b"ab", records=[b"cd"], **fields) + write_count(99) + WRITER * 4
    return data[:between(rng, 0, len(data))] if rng.randrange(3) == 0 else data


def cut_header(rng):
    """A good header or one with too large a count, cut at any length."""
    form = some_form(rng)
    count = pick(rng, (0, product(form.bases) - 1, min(product(form.bases), 2**64 - 1)))
    records = [some_bytes(rng, form.n) for _ in range(rng.randrange(4))]
    data = header(form.bases, form.q, form.version_base, form.n, form.readers, count, records=records)
    return data[:between(rng, 0, len(data))]


def large_stock(rng):
    """More records are told than are there."""
    form = some_form(rng)
    records = [some_bytes(rng, form.n) for _ in range(rng.randrange(4))]
    size = pick(rng, (len(records) + 1, between(rng, len(records) + 1, 65535), 65535, 256, 32768))
    count = pick(rng, (0, min(product(form.bases), 2**64 - 1)))
    return (header(form.bases, form.q, form.version_base, form.n, form.readers, count, records=records, size=size)
            + WRITER * rng.randrange(form.n))


def tiny(rng):
    """No byte, one byte, or a few."""
    return pick(rng, (b"", bytes([rng.randrange(256)]), bytes([rng.randrange(10)]), some_bytes(rng, between(rng, 2, 12)),
                      bytes([between(rng, 1, 8)]) + some_bytes(rng, between(rng, 0, 30))))


def dense(rng, most=2000):
    """One digit and one byte to read, so that many lines are printed."""
    form = some_form(rng, bases=[between(rng, 2, 256)], q=1, n=1, version_base=256, readers=between(rng, 1, 4))
    schedule = Schedule(rng, form)
    for reader in range(form.readers):  # a few reads that overlap the others
        schedule.begin_read(reader, 2)
    reader = rng.randrange(form.readers)
    schedule.add(cancel(reader))
    length = between(rng, most // 4, most)
    while len(schedule.commands) < length:
        if rng.randrange(20) == 0:
            schedule.writer_acts(2)
        elif rng.randrange(3) == 0:
            schedule.add(read_record(reader, 2) + step(reader) * 3)
            if schedule.page.reads[reader] is not None:
                schedule.add(step(reader) * 3)
        else:
            schedule.add(some_count_read(rng, reader) + step(reader) * 2)
    schedule.finish_reads()
    return schedule.bytes()


def at_limit(rng):
    """Exactly as long as an input may be, or one byte longer, or somewhat."""
    length = pick(rng, (MOST_INPUT, MOST_INPUT, MOST_INPUT + 1, between(rng, MOST_INPUT + 2, MOST_INPUT + 40000)))
    data = dense(rng, MOST_INPUT - 100 if rng.randrange(2) else 2000)
    sort = rng.randrange(4)
    if sort == 0:
        data = bytes([pick(rng, (0, 9, 255))]) + data
    if sort <= 1:
        return data[:length] + some_bytes(rng, max(0, length - len(data)))
    # Lengthen the lent records, which have one byte each, so that the schedule stays whole.
    at = 2 + 1 + 1 + 2 + 2 + 1 + 8 + 1
    size, more = number(data[at:at + 2]), min(length, MOST_INPUT) - len(data)
    data = data[:at] + two(size + more) + data[at + 2:at + 2 + size] + some_bytes(rng, more) + data[at + 2 + size:]
    return data + WRITER * (length - len(data))


# How many of 400 inputs are of each kind.
KINDS = ((50, count_race), (10, wide_race), (60, record_race), (50, mixed), (8, large_form), (40, torn), (25, spent),
         (50, refused), (25, two_refusals), (15, noise), (25, damaged), (12, bad_header), (10, cut_header), (5, large_stock),
         (8, tiny), (6, dense), (1, at_limit))


def drawn(seed):
    rng = random.Random(seed)
    ticket = rng.randrange(sum(weight for weight, _ in KINDS))
    for weight, maker in KINDS:
        if ticket < weight:
            return maker, rng
        ticket -= weight


def kind(seed):
    return drawn(seed)[0].__name__


def make(seed):
    maker, rng = drawn(seed)
    return maker(rng)


if __name__ == "__main__":
    sys.stdout.buffer.write(make(int(sys.argv[1])))
