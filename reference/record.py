#!/usr/bin/env python3
"""Write the recorded cases, inputs of `runlist` and what it must print, computed with the reference, into
`crates/cases/data/cases.bin`, and `INDEX.txt` beside it, a line for each: number, name, reason, bytes of input, last line of
output. The hand-made cases stand in the table below, each with the reason why it is there; generated ones of every kind
follow. The files come out the same each time; `--check` writes nothing, compares, and exits with 1 on a difference;
`--case NUMBER` writes the input of one case to standard output."""

import sys
from pathlib import Path

from inputs import (DOCUMENT_RUN, KINDS, WRITER, at_limit, cancel, header, kind, make, read_count, read_count_high,
                    read_record, step, write_count, write_record)
from runlist import MOST_INPUT, printed

FOLDER = Path(__file__).resolve().parent.parent / "crates" / "cases" / "data"
MOST_CASES, MOST_BYTES = 280, 1200000  # `cases` runs them all in every gate
MOST_TEXT = 262143  # one less than the array that `cases` reads an input or an output into
FIRST_SEED = 1000
OF_EACH_KIND = 5

SMALL = header([10], 1, 10, 1, 1, 7, b"a", [b"b"])  # a count write or read takes 2 steps, a record write or attempt 3
PAIR = header([10], 1, 10, 2, 2, 5, b"aa", [b"bb", b"cc"])  # two readers; a record write or attempt takes 4 steps
BIT = header([10], 1, 2, 1, 1, 5, b"a", [b"b"])  # versions 0 and 1 only
TENS = header([10, 10, 10], readers=2, count=99)  # a count write or read takes 6 steps
CLOCK = header([24, 60], count=11 * 60 + 57)  # hours and minutes; a count write or read takes 4 steps
MIXED = [7, 10, 4]  # no two neighbours have the same largest digit
WIDEST = [256] * 8
LAST = 2**64 - 1

COUNT_READ = read_count(0) + step(0) * 2  # whole, with one count place
SPENT = write_record(0) + WRITER * 3  # brings BIT to its top version


def form(**fields):
    """SMALL's form with some fields changed, and a whole count read where it is good."""
    fields = dict({"bases": [10], "count": 1, "records": [bytes(fields.get("n", 1))]}, **fields)
    return header(**fields) + COUNT_READ


def long_reads(spare, reader=0):
    """Short count reads up to the longest input; `spare` bytes of it are lent records."""
    head = header([256], 1, 256, 1, 16, 255, b"a", [b"b"] * spare)
    return head + (read_count(reader) + step(reader) * 2) * ((MOST_INPUT - len(head)) // 6)


def record_output():
    """Record reads that print the longest lines for their length, up to the longest input."""
    head = header([2], 1, 256, 1, 16, 0, b"a", [b"z"]) + (write_record(0) + WRITER * 3) * 255
    return head + (read_record(15, 1) + step(15) * 3) * ((MOST_INPUT - len(head)) // 9)


def most_output():
    """Count reads between the copies of a write that stays unfinished, up to the longest input. Nothing prints more for its
    length: 141,933 bytes."""
    head = header([256], readers=16, count=254) + write_count(255) + WRITER
    return head + (read_count(15) + step(15) * 2) * ((MOST_INPUT - len(head)) // 6)


def longest_stock():
    """The longest input, nearly all of it lent records; the last of these is written."""
    return header(n=256, records=[b"\x5a" * 256] * 254) + write_record(253) + WRITER * 234


def torn_attempts(count):
    """Attempts on SMALL's kind of page, each with a whole record write after its first step."""
    return (step(0) + write_record(0) + WRITER * 3 + step(0) * 2) * count


def all_readers():
    """Sixteen readers take turns, and the writer takes a step after each turn."""
    out = header([2, 3, 5], readers=16, count=14) + b"".join(read_count(r) for r in range(16)) + write_count(15)
    for turn in range(6):
        out += b"".join(step(r) + (WRITER if r == turn else b"") for r in range(16))
    return out


def parted(bases, a, b, readers=1, reader=0):
    """A read gathers all of a, then c2 is written from a to b, then all of b is gathered."""
    m = len(bases)
    return (header(bases, readers=readers, count=a) + read_count(reader) + step(reader) * m + write_count(b) + WRITER * m
            + step(reader) * m)


def two_parted():
    """Two reads at once: 148 becomes 151 between the copies of the first, and 151 becomes 153 between those of the second."""
    return (header([10] * 3, readers=2, count=148) + read_count(0) + step(0) * 3 + write_count(151) + WRITER * 6
            + read_count(1) + step(0) + step(1) * 3 + write_count(153) + WRITER * 3
            + step(1) + step(0) + step(1) + step(0) + step(1))


def all_lines():
    """A record attempt is given up, a count read parts, a record is accepted, a count is shown; each by the same reader."""
    return (PAIR + read_record(1, 1) + step(1) + write_record(0) + WRITER + step(1) * 3 + WRITER * 3 + read_count(1) + step(1)
            + write_count(8) + WRITER + step(1) + WRITER + read_record(1, 1) + step(1) * 4 + read_count(1) + step(1) * 2)


def between_tens(*commands):
    """099 becomes 100 and the write stays unfinished with c2 whole, so that whole reads by either reader are between; then the
    commands."""
    return TENS + write_count(100) + WRITER * 3 + b"".join(commands)


def both_choices():
    """Two readers in turns, one without a choice and one that names the high end; then each with the other's beginning."""
    turns = (step(0) + step(1)) * 6
    return between_tens(read_count(0), read_count_high(1), turns, read_count_high(0), read_count(1), turns)


def choices_cancelled():
    """Reads are cancelled after each number of steps, and the next one is begun with the other choice."""
    return between_tens(*[first(0) + step(0) * taken + cancel(0) + then(0) + step(0) * 6
                          for first, then in ((read_count_high, read_count), (read_count, read_count_high))
                          for taken in range(6)])


SMALL_HEADER_CUTS = [
    ("header-cut-%02d" % length, "a header of %d bytes, cut after %d" % (len(SMALL), length), 2, SMALL[:length])
    for length in range(1, len(SMALL))]

CUT_BODIES = [
    ("cut-%02x-after-%d" % (command[0], length), "a body cut short is 11, and what came before is done", 11,
     PAIR + read_count(1) + command[:length])
    for command in (write_count(5), write_record(0), read_count(0), read_record(0, 1), step(1), cancel(1), read_count_high(0))
    for length in sorted({1, len(command) - 1})]

# Name, reason, what the documents want (the refusal at its end; or, if there is none, all lines before that), input.
HAND_MADE = [
    ("document-run", "the run printed in document 01, with both ends of its count read", ["R 0 2 1 6262", "B 0 4 7"],
     DOCUMENT_RUN),
    ("empty", "empty input is 2", 2, b""),

    # The header's numbers at the ends of their ranges.
    ("m-0-alone", "m is checked before anything is known to be missing", 1, b"\x00"),
    ("m-9-alone", "m is checked before anything is known to be missing", 1, b"\x09"),
    ("m-255-alone", "m is one byte", 1, b"\xff"),
    ("m-8-alone", "a good m, and the form is incomplete", 2, b"\x08"),
    ("m-0", "no count place, in a whole header", 1, form(bases=[])),
    ("m-8", "eight count places", 0, header([2] * 8, count=255) + read_count(0) + step(0) * 16),
    ("m-9", "nine count places, in a whole header", 1, form(bases=[2] * 9)),
    ("base-0", "a count base below its range", 1, form(bases=[10, 0])),
    ("base-1", "a count base below its range", 1, form(bases=[1, 10])),
    ("base-2", "the least count base", 0, form(bases=[2])),
    ("base-256", "the largest count base is 0100", 0, form(bases=[256], count=255)),
    ("base-257", "a count base above its range", 1, form(bases=[257])),
    ("base-65535", "two bytes of a base", 1, form(bases=[65535])),
    ("last-base-257", "all bases are checked", 1, form(bases=[2] * 7 + [257])),
    ("q-0", "no version place", 1, form(q=0)),
    ("q-1", "one version place", 0, form(q=1) + read_record(0, 1) + step(0) * 3),
    ("q-4", "four version places", 0, form(q=4) + read_record(0, 1) + step(0) * 9),
    ("q-5", "five version places", 1, form(q=5)),
    ("version-base-0", "a version base below its range", 1, form(version_base=0)),
    ("version-base-1", "a version base below its range", 1, form(version_base=1)),
    ("version-base-2", "the least version base", 0, form(version_base=2) + SPENT),
    ("version-base-256", "the largest version base", 0, form(version_base=256) + SPENT),
    ("version-base-257", "a version base above its range", 1, form(version_base=257)),
    ("n-0", "an empty record", 1, form(n=0)),
    ("n-1", "the shortest record", 0, form(n=1)),
    ("n-256", "the longest record", 0, form(n=256) + read_record(0, 1) + step(0) * 258),
    ("n-257", "a record too long", 1, form(n=257)),
    ("R-0", "no reader", 1, form(readers=0)),
    ("R-1", "one reader, and the second is absent", 8, form(readers=1) + read_count(1)),
    ("R-16", "sixteen readers, and the last reads", 0, form(readers=16) + read_count(15) + step(15) * 2),
    ("R-16-absent", "the seventeenth of sixteen readers", 8, form(readers=16) + read_count(16)),
    ("R-17", "seventeen readers", 1, form(readers=17)),

    # The header's order of checks, and its length.
    ("bad-base-form-cut", "that the form is complete comes before its other numbers", 2, form(bases=[0])[:8]),
    ("bad-R-header-cut", "the form's numbers come before the rest of the header", 1, form(readers=17)[:9]),
    ("bad-q-over-top", "the form's numbers come before the count", 1, form(q=5, count=LAST)),
    ("over-top-stock-cut", "that the header is complete comes before the count", 2,
     header(count=10, records=[b"a"])[:-1]),
    ("stock-one-short", "a record more is told than is there", 2, header(n=2, records=[b"ab"], size=2) + b"c"),
    ("stock-65535", "the largest number of records, and none there", 2, header(size=65535)),
    ("stock-256", "the number of records is two bytes, high byte first", 2, header(size=256, records=[b"a"] * 255)),
    ("stock-takes-commands", "bytes after the header belong to the records that were told", 0,
     header(size=3) + WRITER * 3 + COUNT_READ),
    ("no-stock", "no record is lent, and none can be written", 8, header() + COUNT_READ + write_record(0)),
] + SMALL_HEADER_CUTS + [
    ("header-alone", "a whole header and no command", 0, SMALL),

    # The input's length.
    ("longest", "exactly 65,536 bytes, all carried out", 0, long_reads(2, 15)),
    ("too-long", "65,537 bytes", 2, long_reads(2, 15) + WRITER),
    ("too-long-m-0", "65,537 bytes are found before a bad m", 2, bytes(MOST_INPUT + 1)),
    ("longest-m-0", "65,536 bytes with a bad m", 1, bytes(MOST_INPUT)),
    ("longest-stock", "lent records up to the end of the longest input, and the last is written", 0, longest_stock()),
    ("longest-but-one", "65,535 bytes, all carried out", 0, longest_stock()[:-1]),
    ("record-output", "the longest output of record reads for its input", 0, record_output()),
    ("most-output", "count reads between two copies print the most, up to the longest input", 0, most_output()),

    # The starred edges, and what stands near them.
    ("carry-000-100", "a = 000 and b = 100 give 99 and 100", ["B 0 99 100"],
     TENS + write_count(100) + WRITER * 5 + read_count(0) + step(0) * 6),
    ("carry-099-199", "a = 099 and b = 199 have the high end 100, not 199", ["B 0 99 100"],
     TENS + read_count(0) + step(0) * 3 + write_count(100) + WRITER + step(0) * 3 + WRITER * 5),
    ("clock-hour", "a = 11:57 and b = 12:04 give 11:59 and 12:00", ["B 0 719 720"],
     CLOCK + read_count(0) + step(0) * 2 + write_count(724) + WRITER * 4 + step(0) * 2),
    ("clock-minute", "a = 11:57 and b = 11:59 part in the last place: both are whole", ["B 0 717 719"],
     CLOCK + read_count(0) + step(0) * 2 + write_count(719) + WRITER * 2 + step(0) * 2),
    ("clock-equal", "equal copies show themselves", ["C 0 717"], CLOCK + read_count(0) + step(0) * 4),
    ("digit-5-7", "with one place 5 and 7 are the ends", ["B 0 5 7"],
     header(count=5) + read_count(0) + step(0) + write_count(7) + WRITER + step(0)),
    ("count-9", "9 has a digit of base 10", 0, header(count=9) + COUNT_READ),
    ("count-10", "10 has none, in the header", 4, header(count=10) + COUNT_READ),
    ("write-9", "9 has a digit of base 10, in a write", 0, header(count=8) + write_count(9) + WRITER * 2 + COUNT_READ),
    ("write-10", "10 has none, in a write", 4, header(count=8) + write_count(10) + WRITER * 2),
    ("last-count", "the last count of eight bases of 256", 0, header([256] * 8, count=LAST) + read_count(0) + step(0) * 16),
    ("write-last-count", "the last count of eight bases of 256, written and met by a read",
     ["B 0 %d %d" % (LAST - 255, LAST)],
     header([256] * 8, count=LAST - 255) + read_count(0) + step(0) * 8 + write_count(LAST) + WRITER * 16 + step(0) * 8),
    ("carry-eight-places", "a carry from the last of eight places to the first, met in its midst",
     ["B 0 %d %d" % (2**56 - 1, 2**56)],
     header([256] * 8, count=2**56 - 1) + write_count(2**56) + WRITER + read_count(0) + step(0) * 16),
    ("over-eight-places", "the product of the bases is just below 2^64", 4,
     header([256] * 7 + [255], count=255 * 256**7 - 1) + write_count(255 * 256**7)),
    ("over-in-header", "a first count far above the product", 4, header([256] * 7 + [2], count=LAST)),
    ("version-9", "from version 8 the next is 9", 0,
     SMALL + SPENT * 9 + read_record(0, 1) + step(0) * 3),
    ("version-10", "from version 9 there is none", 9, SMALL + SPENT * 9 + write_record(0)),
    ("version-through-top", "v1 passes through its top on the way from 01 to 10; only from 11 there is no next", 9,
     header(q=2, version_base=2, records=[b"b"]) + (write_record(0) + WRITER * 5) * 3 + read_record(0, 1) + step(0) * 5
     + write_record(0)),
    ("version-carry", "a version carries from 255 to 256 inside an attempt", 0,
     header(q=2, version_base=256, records=[b"b"]) + (write_record(0) + WRITER * 5) * 255 + read_record(0, 2)
     + write_record(0) + WRITER + step(0) * 5 + WRITER * 4 + step(0) * 5),

    # Copies that part, and copies that do not though a write was met.
    ("parted-first", "2:4:1 and 3:5:1 give 2:9:3 and 3:0:0; a neighbour's base would give another low end",
     ["B 0 119 120"], parted(MIXED, 97, 141)),
    ("parted-middle", "2:4:1 and 2:6:2 give 2:4:3 and 2:6:0; a neighbour's base would give another low end",
     ["B 0 99 104"], parted(MIXED, 97, 106)),
    ("parted-last", "2:4:1 and 2:4:3 part in the last place: no digit is filled", ["B 0 97 99"], parted(MIXED, 97, 99)),
    ("parted-rising-bases", "bases 2, 16, 256: each largest digit is above that of the place before", ["B 0 4095 4096"],
     parted([2, 16, 256], 0x307, 0x1208)),
    ("parted-falling-bases", "bases 256, 16, 2: each largest digit is below that of the place before", ["B 0 127 288"],
     parted([256, 16, 2], 3 * 32 + 5, 9 * 32 + 14)),
    ("parted-one-of-2", "one place of the least base", ["B 0 0 1"], parted([2], 0, 1)),
    ("parted-one-of-256", "one place of the largest base, by the last of sixteen readers", ["B 15 0 255"],
     parted([256], 0, 255, 16, 15)),
    ("parted-widest-first", "eight bases of 256 part in the first place", ["B 0 %d %d" % (0xff * 2**56 - 1, 0xff * 2**56)],
     parted(WIDEST, 0xfe01020304050607, 0xff01020304050607)),
    ("parted-widest-middle", "eight bases of 256 part in the fourth place",
     ["B 0 %d %d" % (0xfffffffeffffffff, 0xffffffff00000000)], parted(WIDEST, 0xfffffffe12345678, 0xffffffff9abcdef0)),
    ("parted-widest-last", "the largest ends that there are", ["B 0 %d %d" % (LAST - 1, LAST)],
     parted(WIDEST, LAST - 1, LAST)),
    ("parted-two-readers", "two reads at once, parted by two writes in two places", ["B 0 149 150", "B 1 151 153"],
     two_parted()),
    ("parted-then-equal", "a read whose copies part, and the same reader's next has equal ones", ["B 0 99 100", "C 0 150"],
     parted([10] * 3, 99, 150) + WRITER * 3 + read_count(0) + step(0) * 6),
    ("parted-again", "a write that stays unfinished parts the copies of each read", ["B 0 719 720"] * 2,
     parted([24, 60], 717, 724) + read_count(0) + step(0) * 4),
    ("met-equal-new", "a whole write after the first step of a read, and both copies are the new count", ["C 0 150"],
     header([10] * 3, count=148) + read_count(0) + step(0) + write_count(150) + WRITER * 6 + step(0) * 5),
    ("met-equal-old", "a write begun inside a read changes each digit after it was loaded, and both copies are the old count",
     ["C 0 148"],
     header([10] * 3, count=148) + read_count(0) + step(0) * 3 + write_count(199) + WRITER + step(0) * 2 + WRITER * 2
     + step(0) + WRITER * 3),
    ("all-lines", "a line of each sort, by one reader", ["G 1 1", "B 1 5 8", "R 1 1 1 6262", "C 1 8"], all_lines()),

    # The high end named. A line tells both ends, and not the choice.
    ("high-099-199", "a = 099 and b = 199 with the high end named, then a read without a choice: the line is the same",
     ["B 0 99 100", "B 0 99 100"],
     TENS + read_count_high(0) + step(0) * 3 + write_count(100) + WRITER + step(0) * 3 + read_count(0) + step(0) * 6),
    ("high-equal", "equal copies show themselves to a read that names the high end, at rest and after a whole write",
     ["C 0 717", "C 0 724"],
     CLOCK + read_count_high(0) + step(0) * 4 + read_count_high(0) + write_count(724) + WRITER * 4 + step(0) * 4),
    ("high-cancelled", "a read that names the high end is cancelled, and the next names none; and the reverse",
     ["B 0 99 100"] * 12, choices_cancelled()),
    ("both-choices", "two readers in turns with different choices, then the other way around",
     ["B 0 99 100", "B 1 99 100"] * 2, both_choices()),
    ("half-05-30", "05 half turned into 30: the low end, 09, is above every count that is whole; both choices",
     ["B 0 9 30", "B 1 9 30"],
     header([10, 10], readers=2, count=5) + write_count(30) + WRITER * 2 + read_count(0) + read_count_high(1)
     + (step(1) + step(0)) * 3 + step(0) + step(1)),

    # Races.
    ("trap-150-100", "of two reads that overlap, the later to finish has the lower ends", ["C 1 150", "B 0 99 100"],
     TENS + read_count(0) + step(0) * 3 + write_count(150) + WRITER * 6 + read_count(1) + step(1) * 6 + step(0) * 3),
    ("equal-count", "an equal count is a write too", 0, TENS + write_count(99) + WRITER * 6 + read_count(0) + step(0) * 6),
    ("announced-only", "a count that is announced and not begun is not shown", 0, TENS + write_count(500) + read_count(0)
     + step(0) * 6),
    ("two-carries", "a read meets two writes", 0,
     TENS + read_count(0) + step(0) * 2 + write_count(100) + WRITER * 6 + step(0) * 2 + write_count(199) + WRITER * 3
     + step(0) * 2 + WRITER * 3),
    ("all-readers", "sixteen count reads in turns with a carry", 0, all_readers()),
    ("torn-then-accepted", "a torn attempt, and the retry is accepted", 0,
     PAIR + read_record(1, 2) + step(1) * 2 + write_record(0) + WRITER * 3 + step(1) * 2 + WRITER + step(1) * 4),
    ("torn-one-allowed", "the only attempt is torn", 0,
     PAIR + read_record(0, 1) + step(0) + write_record(1) + WRITER + step(0) * 3 + WRITER * 3),
    ("write-inside-attempt", "a whole write between the first step of an attempt and the second", 0,
     PAIR + read_record(0, 1) + step(0) + write_record(1) + WRITER * 4 + step(0) * 3),
    ("attempt-inside-write", "a whole attempt after the first step of a write", 0,
     PAIR + write_record(1) + WRITER + read_record(0, 2) + step(0) * 4 + WRITER * 3 + step(0) * 4),
    ("announced-record", "a record that is announced and not begun tears nothing", 0,
     PAIR + write_record(1) + read_record(0, 1) + step(0) * 4),
    ("gave-up-then-accepted", "after giving up, the next read of this reader is a new one", 0,
     PAIR + read_record(0, 1) + step(0) + write_record(1) + WRITER * 4 + step(0) * 3 + read_record(0, 3) + step(0) * 4),
    ("cancelled-attempts", "the attempts of a cancelled read do not count for the next", 0,
     PAIR + read_record(0, 3) + step(0) + write_record(1) + WRITER * 4 + step(0) * 3 + cancel(0) + read_record(0, 3)
     + step(0) * 4),
    ("cancel-count-read", "a cancelled count read begins anew", 0,
     TENS + read_count(0) + step(0) * 5 + cancel(0) + write_count(100) + WRITER * 6 + read_count(0) + step(0) * 6),
    ("printed-at-acceptance", "a record is printed as accepted, though the reader's next read has overwritten its buffer", 0,
     PAIR + read_record(0, 1) + step(0) * 4 + write_record(0) + WRITER * 4 + read_record(0, 1) + step(0) * 3),
    ("printed-before-zeros", "a record is printed as accepted, though the next read gave up and left zeros", 0,
     PAIR + read_record(0, 1) + step(0) * 4 + read_record(0, 1) + step(0) + write_record(0) + WRITER * 4 + step(0) * 3),
    ("bytes-00-0a-ff", "bytes of a record in hexadecimal", 0,
     header(n=5, first=b"\x00\x0a\xff\x0a\x00", records=[b"\xff\x00\x0a\x80\x7f"]) + read_record(0, 1) + step(0) * 7
     + write_record(0) + WRITER * 7 + read_record(0, 1) + step(0) * 7),
    ("long-record-torn", "256 bytes, torn in the midst, then accepted", 0,
     header(n=256, records=[bytes(range(256))]) + read_record(0, 2) + step(0) * 100 + write_record(0) + WRITER * 258
     + step(0) * 158 + step(0) * 258),
    ("255-attempts-given-up", "255 attempts allowed and all torn", 0,
     header(version_base=256, records=[b"b"]) + read_record(0, 255) + torn_attempts(255) + read_count(0)),
    ("255th-attempt-accepted", "255 attempts allowed and the last accepted", 0,
     header(version_base=256, records=[b"b"]) + read_record(0, 255) + torn_attempts(254) + step(0) * 3),
    ("reader-order", "lines stand in the order in which the reads end", 0,
     PAIR + read_count(1) + read_count(0) + step(1) + step(0) * 2 + step(1) + read_record(0, 1) + step(0) * 4),

    # Each refusal of a command.
    ("going-back", "a count one below the last", 5, SMALL + write_count(6)),
    ("going-back-after-write", "a count below one just written", 5, SMALL + write_count(9) + WRITER * 2 + write_count(8)),
    ("busy-announced", "a write that is announced and not begun makes busy", 6, SMALL + write_count(7) + write_count(7)),
    ("busy-count-by-record", "a count write while a record write goes on", 6,
     SMALL + write_record(0) + WRITER + write_count(7)),
    ("busy-record-by-count", "a record write while a count write goes on", 6,
     SMALL + write_count(8) + WRITER + write_record(0)),
    ("busy-last-step", "busy until the last step of the write", 6, SMALL + write_record(0) + WRITER * 2 + write_record(0)),
    ("not-busy-after", "not busy after the last step", 0, SMALL + write_record(0) + WRITER * 3 + write_record(0)),
    ("busy-reader-count", "a count read while the reader's record read goes on", 6, PAIR + read_record(1, 1) + read_count(1)),
    ("busy-reader-record", "a record read while the reader's count read goes on", 6,
     PAIR + read_count(1) + step(1) + read_record(1, 1)),
    ("busy-high-by-none", "a read that would name the high end while the reader's count read without a choice goes on", 6,
     PAIR + read_count(1) + step(1) + read_count_high(1)),
    ("busy-high-by-high", "the high end named twice", 6, PAIR + read_count_high(1) + read_count_high(1)),
    ("busy-none-by-high", "no choice while the reader's read that names the high end goes on", 6,
     PAIR + read_count_high(1) + step(1) + read_count(1)),
    ("busy-high-by-record", "the high end named while the reader's record read goes on", 6,
     PAIR + read_record(1, 1) + step(1) * 3 + read_count_high(1)),
    ("busy-record-by-high", "a record read while the reader's read that names the high end goes on", 6,
     PAIR + read_count_high(1) + read_record(1, 1)),
    ("busy-other-reader", "another reader's read makes nobody busy", 0,
     PAIR + read_count(1) + read_count(0) + step(0) * 2 + step(1) * 2),
    ("writer-idle", "a writer step with no write", 7, SMALL + WRITER),
    ("writer-after-end", "a writer step after the last", 7, SMALL + write_count(8) + WRITER * 3),
    ("reader-idle", "a reader step with no read", 7, SMALL + step(0)),
    ("reader-after-end", "a reader step after the last of a count read", 7, SMALL + COUNT_READ + step(0)),
    ("reader-after-acceptance", "a reader step after acceptance", 7, SMALL + read_record(0, 9) + step(0) * 4),
    ("reader-after-giving-up", "a reader step after giving up", 7, SMALL + read_record(0, 1) + torn_attempts(1) + step(0)),
    ("cancel-idle", "nothing to cancel", 7, SMALL + cancel(0)),
    ("cancel-twice", "nothing to cancel any more", 7, SMALL + read_count(0) + cancel(0) + cancel(0)),
    ("record-beyond", "the place after the last lent record", 8, PAIR + write_record(2)),
    ("record-65535", "the last place that a command can name", 8, PAIR + write_record(65535)),
    ("record-256", "a place is two bytes, high byte first", 8, PAIR + write_record(256)),
    ("attempts-0", "a record read with no attempt", 8, SMALL + read_record(0, 0)),
    ("absent-begins-count", "an absent reader", 8, SMALL + read_count(1)),
    ("absent-begins-high", "an absent reader, while the other one is busy", 8, SMALL + read_count(0) + read_count_high(1)),
    ("absent-begins-record", "an absent reader", 8, SMALL + read_record(255, 1)),
    ("absent-steps", "an absent reader, before it is seen that it has no read", 8, SMALL + step(1)),
    ("absent-cancels", "an absent reader, before it is seen that it has no read", 8, SMALL + cancel(255)),
    ("versions-spent", "the top version of base 2 is 1", 9, BIT + SPENT + write_record(0)),
    ("kind-00", "an unknown kind", 11, SMALL + b"\x00"),
    ("kind-08", "an unknown kind", 11, SMALL + COUNT_READ + b"\x08" + COUNT_READ),
    ("kind-09", "an unknown kind", 11, SMALL + read_count_high(0) + b"\x09\x00"),
    ("kind-0a", "an unknown kind", 11, SMALL + b"\x0a\x00"),
    ("kind-0b", "an unknown kind", 11, SMALL + b"\x0b\x00"),
    ("kind-0c", "an unknown kind, below the one that names the high end", 11, SMALL + b"\x0c\x00" + COUNT_READ),
    ("kind-0e", "an unknown kind, above the one that names the high end", 11, SMALL + b"\x0e\x00" + COUNT_READ),
    ("kind-ff", "an unknown kind", 11, SMALL + b"\xff"),
] + CUT_BODIES + [
    ("refused-in-mid-run", "lines before a refusal are printed, commands after it are not carried out", 5,
     SMALL + COUNT_READ * 2 + write_count(3) + COUNT_READ * 2),

    # Two refusals apply; the order of the checks decides.
    ("over-top-busy", "6 before 4", 6, SMALL + write_count(7) + write_count(10)),
    ("going-back-busy", "6 before 5", 6, SMALL + write_count(8) + write_count(0)),
    ("going-back-in-write", "6 before 5, with c2 written already", 6, SMALL + write_count(9) + WRITER + write_count(8)),
    ("record-beyond-busy", "8 before 6", 8, SMALL + write_count(8) + write_record(1)),
    ("spent-busy", "6 before 9, with v1 at its top already", 6, BIT + write_record(0) + WRITER + write_record(0)),
    ("spent-busy-count", "6 before 9, with a count write", 6, BIT + SPENT + write_count(5) + write_record(0)),
    ("spent-beyond", "8 before 9", 8, BIT + SPENT + write_record(1)),
    ("attempts-0-busy", "8 before 6", 8, SMALL + read_record(0, 2) + read_record(0, 0)),
    ("absent-attempts-0", "both are 8", 8, SMALL + read_record(1, 0)),
    ("absent-cut", "11 before 8", 11, SMALL + read_record(255, 1)[:2]),
    ("record-beyond-cut", "11 before 8", 11, SMALL + write_record(65535)[:2]),
    ("over-top-cut", "11 before 4", 11, SMALL + write_count(LAST)[:8]),
    ("record-cut-busy", "11 before 6", 11, SMALL + write_record(0) + write_record(0)[:2]),
    ("count-read-cut-busy", "11 before 6", 11, SMALL + read_count(0) + read_count(0)[:1]),
    ("high-cut-busy", "11 before 6", 11, SMALL + read_count_high(0) + read_count_high(0)[:1]),
    ("idle-step-cut", "11 before 7", 11, SMALL + step(0)[:1]),
]


def generated():
    """The same number of inputs of each kind, those of the first seeds; the longest inputs are hand-made above."""
    left = {maker.__name__: OF_EACH_KIND for _, maker in KINDS if maker is not at_limit}
    seed = FIRST_SEED
    while any(left.values()):
        name = kind(seed)
        if left.get(name):
            left[name] -= 1
            yield "seed-%d" % seed, "generated, %s" % name.replace("_", " "), None, make(seed)
        seed += 1


def cases():
    return HAND_MADE + list(generated())


def four(number):
    """A number as `cases.bin` has it."""
    return number.to_bytes(4, "big")


def fits(lines, wanted):
    """Whether an output is what the table wants; of generated inputs it wants nothing."""
    before, refusal = (wanted, 0) if isinstance(wanted, list) else (lines[:-1], wanted)
    return wanted is None or (lines[:-1] == before and lines[-1].endswith(" %d" % refusal))


def files():
    """The number of cases, and the files to be written, by name."""
    packed, index = [], []
    for number, (name, reason, wanted, data) in enumerate(cases()):
        output = printed(data).encode()
        lines = output.decode().split("\n")[:-1]
        assert fits(lines, wanted), name
        assert max(len(data), len(output)) <= MOST_TEXT, name
        packed += [four(len(data)), data, four(len(output)), output]
        index.append("%03d | %-24s | %s | %d | %s\n" % (number, name, reason, len(data), lines[-1]))
    names = [line.split(" | ")[1] for line in index]
    assert len(set(names)) == len(names) <= MOST_CASES, "names or number of cases"
    result = {"cases.bin": four(len(names)) + b"".join(packed), "INDEX.txt": "".join(index).encode()}
    assert sum(map(len, result.values())) <= MOST_BYTES, "the data grew too large"
    return len(names), result


def main(arguments):
    if len(arguments) == 2 and arguments[0] == "--case":
        sys.stdout.buffer.write(cases()[int(arguments[1])][3])
        return 0
    count, wanted = files()
    if arguments == ["--check"]:
        there = {path.name: path.read_bytes() for path in FOLDER.iterdir()}
        wrong = sorted(name for name in set(wanted) | set(there) if wanted.get(name) != there.get(name))
        for name in wrong:
            print("%s differs from what is made now" % name)
        print("%d recorded cases, %d of %d files differ" % (count, len(wrong), len(wanted)))
        return 1 if wrong else 0
    if arguments:
        sys.exit("usage: record.py [--check | --case NUMBER]")
    FOLDER.mkdir(parents=True, exist_ok=True)
    for name, data in wanted.items():
        (FOLDER / name).write_bytes(data)
    print("%d recorded cases, %d bytes" % (count, sum(map(len, wanted.values()))))
    return 0


if __name__ == "__main__":
    sys.exit(main(sys.argv[1:]))
