#!/usr/bin/env python3
"""Write recorded schedules of folded pages, with what the reference makes of them, into `data/folded.txt`. `runlist` has no
folded pages, so these are for the library: its tests replay them. The hand-made ones stand in the table below, each with the
reason why it is there and what it must print; generated ones follow. The file comes out the same each time; `--check` writes
nothing, compares, and exits with 1 on a difference. `--with PROGRAM COUNT [FIRST_SEED]` compares what the program, called
with `--folded`, prints for generated inputs."""

import random
import subprocess
import sys
from pathlib import Path

import inputs
from inputs import WRITER, cancel, header, read_count, read_count_high, read_record, step, write_count, write_record
from runlist import FOLDED, Refusal, opened, run

FILE = Path(__file__).resolve().parent / "data" / "folded.txt"
KINDS = (inputs.count_race, inputs.wide_race, inputs.mixed, inputs.large_form, inputs.refused, inputs.two_refusals)
GENERATED = 48
MOST_INPUT = 400  # of a generated one, so that the file can be looked through

DIGIT = header([10], readers=2, count=4, records=[b"b"])  # a count write or read takes 1 step
CLOCK = header([24, 60], readers=2, count=11 * 60 + 57)  # hours and minutes; 3 steps
TENS = header([10] * 3, readers=2, count=99)  # 5 steps
WIDEST = [256] * 8  # 15 steps
LAST = 2**64 - 1
BIT = header([10, 10], 1, 2, 1, 1, 5, b"a", [b"b"])  # versions 0 and 1 only; a record write or attempt takes 3 steps


def met(head, steps, taken, count, written, reader=0, begin=read_count):
    """A read of so many steps takes some; then so many steps of a write are taken; then the read goes on to its end."""
    return (head + begin(reader) + step(reader) * taken + write_count(count) + WRITER * written
            + step(reader) * (steps - taken))


def carries():
    """099 becomes 100, and a read meets the write at each pair of steps."""
    for taken in range(5):
        for written in range(1, 6):
            line = "C 0 100" if (taken, written) == (0, 5) else "B 0 99 100"
            yield ("carry-%d-%d" % (taken, written),
                   "099 becomes 100: %d steps of the read, then %d of the write, then the read's others" % (taken, written),
                   [line], met(TENS, 5, taken, 100, written))


def shared_alone():
    """11:57 becomes 11:59: only the shared digit changes, with the write's second step and under the read's second."""
    for taken in range(3):
        for written in range(1, 4):
            line = "C 0 %d" % (719 if taken < 2 and written > 1 else 717)
            yield ("shared-alone-%d-%d" % (taken, written),
                   "11:57 becomes 11:59, %d steps of the read and %d of the write: never between" % (taken, written),
                   [line], met(CLOCK, 3, taken, 719, written))


def falling():
    """11:59 becomes 12:00: the shared digit falls, and still no copies cross."""
    for taken in range(3):
        for written in range(1, 4):
            line = "C 0 720" if (taken, written) == (0, 3) else "B 0 719 720"
            yield ("falling-%d-%d" % (taken, written),
                   "11:59 becomes 12:00, %d steps of the read and %d of the write: the shared digit falls" % (taken, written),
                   [line], met(header([24, 60], count=719), 3, taken, 720, written))


def all_readers():
    """Sixteen readers take turns, and the writer takes a step after each turn."""
    out = header([2, 3, 5], readers=16, count=14) + b"".join(read_count(r) for r in range(16)) + write_count(15)
    for turn in range(5):
        out += b"".join(step(r) + (WRITER if r == turn else b"") for r in range(16))
    return out


def alternating(head, steps, count, begin=read_count):
    """A write and a read in turns."""
    return head + begin(0) + write_count(count) + (step(0) + WRITER) * steps


BETWEEN = TENS + write_count(100) + WRITER * 3  # the write stays unfinished, and whole reads are between 99 and 100


def cancelled_choices():
    """A read is cancelled after each number of steps, and the next one is begun with the other choice."""
    high, none = read_count_high, read_count
    for name, first, then in (("high-cancelled", high, none), ("none-cancelled", none, high)):
        for taken in range(5):
            yield ("%s-%d" % (name, taken), "a read is cancelled after %d steps, and the next has the other choice" % taken,
                   ["B 0 99 100"], BETWEEN + first(0) + step(0) * taken + cancel(0) + then(0) + step(0) * 5)


def busy_choices():
    """A reader with a read unfinished begins another: each pair of beginnings that has the high end named in it."""
    beginnings = (("none", read_count(1)), ("high", read_count_high(1)), ("record", read_record(1, 1)))
    for going_on, first in beginnings:
        for again, command in beginnings:
            if "high" in (going_on, again):
                yield ("busy-%s-by-%s" % (again, going_on), "a read is unfinished: %s, then %s" % (going_on, again), 6,
                       BETWEEN + first + step(1) * 2 + command)


# Name, reason, what it must print (the refusal at its end; or, if there is none, all lines before that), input.
HAND_MADE = [
    # One place: the shared digit is all.
    ("one-place", "m = 1: one count digit, one step to write it and one to read it", ["C 0 7"],
     DIGIT + write_count(7) + WRITER + read_count(0) + step(0)),
    ("one-place-at-rest", "m = 1: the page has 2q + n bytes besides", ["C 1 4"], DIGIT + read_count(1) + step(1)),
    ("one-place-before", "m = 1: a write that is announced alone is not seen", ["C 0 4"],
     DIGIT + read_count(0) + write_count(7) + step(0) + WRITER),
    ("one-place-after", "m = 1: a read that is begun before a write shows it", ["C 0 7"],
     DIGIT + read_count(0) + write_count(7) + WRITER + step(0)),
    ("one-place-writer-again", "m = 1: there is no second step of a write", 7, DIGIT + write_count(7) + WRITER * 2),
    ("one-place-reader-again", "m = 1: there is no second step of a read", 7, DIGIT + read_count(0) + step(0) * 2),
    ("one-place-back", "m = 1: going back is told by the one digit", 5, DIGIT + write_count(3)),
    ("one-place-equal", "m = 1: an equal count is a write", ["C 0 4"],
     DIGIT + write_count(4) + WRITER + read_count(0) + step(0)),
    ("one-place-top", "m = 1, base 256: the top count", ["C 0 254", "C 0 255"],
     header([256], count=254) + read_count(0) + step(0) + write_count(255) + WRITER + read_count(0) + step(0)),
    ("one-place-over-top", "m = 1: one above the top", 4, DIGIT + write_count(10)),
    ("one-place-record", "m = 1: the record stands behind one count digit", ["R 0 2 1 6262"],
     header([10], n=2, count=4, first=b"aa", records=[b"bb"]) + read_record(0, 2) + step(0) * 2 + write_record(0) + WRITER * 3
     + step(0) * 2 + WRITER + step(0) * 4),

    # Two places.
    ("clock-after-first-copy", "11:57 becomes 12:04 after the read has 11:57, and the shared digit is not read again",
     ["B 0 719 720"], met(CLOCK, 3, 2, 724, 3)),
    ("clock-before-shared", "11:57 becomes 12:04 before the read takes the shared digit: a = 11:04, b = 12:04",
     ["B 0 719 720"], met(CLOCK, 3, 1, 724, 3)),
    ("clock-alternating", "a write and a read in turns", ["B 0 719 720"], alternating(CLOCK, 3, 724)),
    ("clock-writer-again", "m = 2: there is no fourth step of a write", 7, CLOCK + write_count(724) + WRITER * 4),
    ("clock-reader-again", "m = 2: there is no fourth step of a read", 7, CLOCK + read_count(0) + step(0) * 4),
    ("clock-cancel", "a read is cancelled with one step left, and another begins from the first digit", ["C 0 724"],
     CLOCK + read_count(0) + step(0) * 2 + cancel(0) + write_count(724) + WRITER * 3 + read_count(0) + step(0) * 3),
    ("back-by-shared", "11:56 is below 11:57, and the shared digit alone tells", 5, CLOCK + write_count(716)),
    ("back-by-shared-written", "11:59 was written; 11:58 is above what was opened, and below the shared digit", 5,
     CLOCK + write_count(719) + WRITER * 3 + write_count(718)),
    ("equal-by-shared", "11:57 again is not going back", ["C 0 717"],
     CLOCK + write_count(717) + WRITER * 3 + read_count(0) + step(0) * 3),
    ("back-by-own", "10:59 is below 11:57, though its last digit is above the shared one", 5, CLOCK + write_count(659)),
    ("on-by-own", "12:00 is above 11:57, though its last digit is below the shared one", ["C 0 720"],
     CLOCK + write_count(720) + WRITER * 3 + read_count(0) + step(0) * 3),
] + list(shared_alone()) + list(falling()) + [

    # Three places.
    ("trap", "document 01's trap: a read finished later may show less, if the two overlap", ["C 1 150", "B 0 99 100"],
     TENS + read_count(0) + step(0) * 3 + write_count(150) + WRITER * 5 + read_count(1) + step(1) * 5 + step(0) * 2),
    ("trap-early-shared", "the trap, with the shared digit read after the write: b = 150 itself", ["C 1 150", "B 0 99 100"],
     TENS + read_count(0) + step(0) * 2 + write_count(150) + WRITER * 5 + read_count(1) + step(1) * 5 + step(0) * 3),
] + list(carries()) + [
    ("carry-alternating", "099 becomes 100 in turns with a read", ["B 0 99 100"], alternating(TENS, 5, 100)),
    ("parts-before-last", "099 becomes 109 after the first copy is read: copies part in the last place of their own",
     ["B 0 99 100"], met(header([10] * 3, count=99), 5, 3, 109, 5)),
    ("two-writes", "two whole writes between two steps: 148, 151, 153; a = 148, b = 158", ["B 0 149 150"],
     header([10] * 3, count=148) + read_count(0) + step(0) * 3 + write_count(151) + WRITER * 5 + write_count(153) + WRITER * 5
     + step(0) * 2),
    ("two-writes-shared", "two whole writes before the shared digit is read: a = 143, b = 153", ["B 0 149 150"],
     header([10] * 3, count=148) + read_count(0) + step(0) * 2 + write_count(151) + WRITER * 5 + write_count(153) + WRITER * 5
     + step(0) * 3),
    ("mixed-bases", "bases 7, 10, 4: each place of the low end has its own largest digit", ["B 0 79 120"],
     met(header([7, 10, 4], count=45), 5, 3, 121, 5)),
    ("all-readers", "sixteen reads at once, and a step of a carrying write after each turn", None, all_readers()),

    # The high end named. A line tells both ends, and not the choice.
    ("high-one-place", "m = 1: the copies are one digit, and any choice shows it", ["C 0 4", "C 0 7", "C 1 7"],
     DIGIT + read_count_high(0) + step(0) + write_count(7) + WRITER + read_count_high(0) + read_count(1) + step(0) + step(1)),
    ("high-one-place-again", "m = 1: there is no second step of a read", 7, DIGIT + read_count_high(0) + step(0) * 2),
    ("high-clock", "11:57 becomes 12:04 after the first copy is read", ["B 0 719 720"],
     met(CLOCK, 3, 2, 724, 3, begin=read_count_high)),
    ("high-clock-at-rest", "equal copies, at rest", ["C 1 717"], CLOCK + read_count_high(1) + step(1) * 3),
    ("high-clock-met", "equal copies, though the write of the shared digit alone is met", ["C 0 719"],
     met(CLOCK, 3, 1, 719, 2, begin=read_count_high)),
    ("high-099-199", "099 becomes 100: a = 099, b = 199, and the high end is 100", ["B 0 99 100"],
     met(TENS, 5, 3, 100, 1, begin=read_count_high)),
    ("none-099-199", "the same without a choice, and the low end is 099", ["B 0 99 100"], met(TENS, 5, 3, 100, 1)),
    ("high-alternating", "099 becomes 100 in turns with a read", ["B 0 99 100"], alternating(TENS, 5, 100, read_count_high)),
    ("high-widest-first-place", "all digits change after the first copy is read", ["B 0 %d %d" % (2**56 - 1, 255 << 56)],
     met(header(WIDEST), 15, 8, LAST, 15, begin=read_count_high)),
    ("half-05-30", "05 half turned into 30: the low end, 09, is above every count that is whole; both choices",
     ["B 0 9 30", "B 1 9 30"],
     header([10, 10], readers=2, count=5) + write_count(30) + WRITER * 2 + read_count(0) + read_count_high(1)
     + (step(0) + step(1)) * 3),
    ("half-05-30-early", "the same with the shared digit not yet written: a = 05, b = 35", ["B 0 9 30", "B 1 9 30"],
     header([10, 10], readers=2, count=5) + write_count(30) + WRITER + read_count_high(0) + read_count(1)
     + (step(0) + step(1)) * 3),
    ("both-choices", "two readers in turns with different choices, then the other way around",
     ["B 0 99 100", "B 1 99 100", "B 1 99 100", "B 0 99 100"],
     BETWEEN + read_count(0) + read_count_high(1) + (step(0) + step(1)) * 5 + read_count_high(0) + read_count(1)
     + (step(1) + step(0)) * 5),
    ("high-then-none", "a read that names the high end, and the same reader's next without a choice", ["B 0 99 100"] * 2,
     BETWEEN + read_count_high(0) + step(0) * 5 + read_count(0) + step(0) * 5),
    ("high-then-record", "after a read that names the high end, a record read and a read without a choice",
     ["B 0 99 100", "R 0 1 0 00", "B 0 99 100"],
     BETWEEN + read_count_high(0) + step(0) * 5 + read_record(0, 1) + step(0) * 3 + read_count(0) + step(0) * 5),
] + list(cancelled_choices()) + list(busy_choices()) + [
    ("high-no-reader", "a reader beyond the last", 8, BETWEEN + read_count(0) + read_count_high(2)),
    ("high-no-reader-255", "the last reader that a command can name", 8, BETWEEN + read_count_high(255)),
    ("high-cut", "a body cut short is 11", 11, BETWEEN + read_count_high(1)[:1]),
    ("high-cut-busy", "11 before 6", 11, DIGIT + read_count_high(0) + read_count_high(0)[:1]),

    # Eight places.
    ("widest-top", "eight bases of 256: the top count has eight times 255", ["C 0 %d" % LAST],
     header(WIDEST, count=0) + write_count(LAST) + WRITER * 15 + read_count(0) + step(0) * 15),
    ("widest-top-opened", "the top count from the opening on, and a write of it", ["C 0 %d" % LAST] * 2,
     header(WIDEST, count=LAST) + (read_count(0) + step(0) * 15) + write_count(LAST) + WRITER * 15
     + (read_count(0) + step(0) * 15)),
    ("widest-shared", "the last step up to the top is the shared digit's alone", ["C 0 %d" % LAST],
     met(header(WIDEST, count=LAST - 1), 15, 7, LAST, 8)),
    ("widest-shared-late", "the same, after the shared digit was read", ["C 0 %d" % (LAST - 1)],
     met(header(WIDEST, count=LAST - 1), 15, 8, LAST, 15)),
    ("widest-first-place", "all digits change after the first copy is read", ["B 0 %d %d" % (2**56 - 1, 255 << 56)],
     met(header(WIDEST), 15, 8, LAST, 15)),
    ("widest-last-own-place", "a carry into the last place that the copies do not share", ["B 0 255 256"],
     met(header(WIDEST, count=255), 15, 8, 256, 15)),
    ("widest-back-by-shared", "one below the top, and the shared digit alone tells", 5,
     header(WIDEST, count=LAST) + write_count(LAST - 1)),
    ("widest-writer-again", "there is no 16th step of a write", 7, header(WIDEST) + write_count(LAST) + WRITER * 16),
    ("widest-reader-again", "there is no 16th step of a read", 7, header(WIDEST) + read_count(0) + step(0) * 16),
    ("widest-alternating", "all digits change in turns with a read", ["B 0 %d %d" % (2**56 - 1, 255 << 56)],
     alternating(header(WIDEST), 15, LAST)),

    # Records, and refusals in their order.
    ("record-torn", "a record write meets the only attempt", ["G 0 1"],
     BIT + read_record(0, 1) + step(0) + write_record(0) + WRITER + step(0) * 2),
    ("record-and-counts", "a record is written and read behind folded copies", ["C 0 15", "R 0 1 1 62"],
     BIT + write_count(15) + WRITER * 3 + read_count(0) + step(0) * 3 + write_record(0) + WRITER * 3 + read_record(0, 1)
     + step(0) * 3),
    ("spent", "the top version of base 2 is 1", 9, BIT + write_record(0) + WRITER * 3 + write_record(0)),
    ("opened-over-top", "an opening above the top", 4, header([24, 60], count=24 * 60)),
    ("over-top", "the first count above the top", 4, CLOCK + write_count(24 * 60)),
    ("busy-over-top", "6 before 4", 6, CLOCK + write_count(717) + write_count(24 * 60)),
    ("busy-back", "6 before 5, with the shared digit written", 6, CLOCK + write_count(719) + WRITER * 2 + write_count(718)),
    ("busy-read", "a read is unfinished with its last step to come", 6, CLOCK + read_count(0) + step(0) * 2 + read_count(0)),
    ("no-reader", "a reader beyond the last", 8, CLOCK + step(2)),
    ("unknown", "an unknown kind ends the run, and what came before is done", 11, CLOCK + write_count(718) + WRITER + b"\x08"),
] + [
    ("unknown-%02x" % kind, "an unknown kind, with a read of the high end unfinished", 11,
     CLOCK + read_count_high(0) + step(0) + bytes([kind, 0]))
    for kind in (0x00, 0x08, 0x09, 0x0a, 0x0b, 0x0c, 0x0e, 0x0f, 0xff)
]


def replayed(data):
    """What `runlist` would print if its pages were folded, and what is left of the page and of the buffers."""
    try:
        page, at = opened(data, FOLDED)
    except Refusal as refusal:
        return "END 0 %d\n" % refusal.number
    lines, done, refusal = run(page, data[at:])
    left = ["END %d %d" % (done, refusal), "page " + page.bytes().hex(), "buffers " + b"".join(page.buffers).hex()]
    return "".join(line + "\n" for line in lines + left)


def make(seed):
    """The input of a seed, and the name of its kind."""
    maker = KINDS[seed % len(KINDS)]
    return maker(random.Random(seed), FOLDED), maker.__name__


def generated():
    left, seed = GENERATED, 0
    while left:
        data, kind = make(seed)
        if len(data) <= MOST_INPUT:
            left -= 1
            yield "seed-%d" % seed, "generated, %s" % kind.replace("_", " "), None, data
        seed += 1


def fits(lines, wanted):
    """Whether an output is what the table wants; where it says nothing, it wants only that nothing is refused."""
    end = next(i for i, line in enumerate(lines) if line.startswith("END "))
    before, refusal = (wanted, 0) if isinstance(wanted, list) else (lines[:end], wanted or 0)
    return lines[:end] == before and lines[end].endswith(" %d" % refusal)


def text():
    """The number of schedules, and the whole file: of each its name and reason, its input, and what it leaves."""
    blocks, names = [], set()
    for name, reason, wanted, data in HAND_MADE:
        output = replayed(data)
        assert fits(output.split("\n")[:-1], wanted), name
        assert name not in names, name
        names.add(name)
        blocks.append("# %s: %s\n%s\n%s" % (name, reason, data.hex(), output))
    for name, reason, _, data in generated():
        blocks.append("# %s: %s\n%s\n%s" % (name, reason, data.hex(), replayed(data)))
    return len(blocks), "\n".join(blocks)


def compare(program, count, first):
    """How many of the inputs of these seeds the program replays otherwise."""
    differed = 0
    for seed in range(first, first + count):
        data, kind = make(seed)
        found = subprocess.run([program, "--folded"], input=data, stdout=subprocess.PIPE).stdout.decode()
        if found != replayed(data):
            differed += 1
            print("seed %d (%s) differs" % (seed, kind))
    print("%d inputs on folded pages, %d differed" % (count, differed))
    return differed


def main(arguments):
    if len(arguments) in (3, 4) and arguments[0] == "--with":
        return 1 if compare(arguments[1], *[int(number) for number in (arguments[2:] + ["0"])[:2]]) else 0
    count, wanted = text()
    if arguments == ["--check"]:
        same = FILE.exists() and FILE.read_text() == wanted
        print("%d schedules of folded pages, %s" % (count, "as recorded" if same else "DIFFERENT from those recorded"))
        return 0 if same else 1
    if arguments:
        sys.exit("usage: folded.py [--check | --with PROGRAM COUNT [FIRST_SEED]]")
    FILE.parent.mkdir(exist_ok=True)
    FILE.write_text(wanted)
    print("%d recorded schedules of folded pages, %d bytes" % (count, len(wanted)))
    return 0


if __name__ == "__main__":
    sys.exit(main(sys.argv[1:]))
