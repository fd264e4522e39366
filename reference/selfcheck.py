#!/usr/bin/env python3
"""Check the reference itself: against the run, the edges and the trap of document 01, with both ends, and the end that is
shown, as document 02 wants them; that the choice of a count read is kept for its reader until the read is over, and no longer;
against two small oracles that know no page but only which store came last before which load, over all interleavings of
small forms; against the history that the commands alone tell, over generated inputs; and that the generator reaches every
refusal and every sort of ending. Counts are checked on plain and on folded pages; the queue is held to its promises. Prints
what was checked; the exit status is 1 if anything fails."""

import sys
from collections import Counter
from itertools import combinations_with_replacement

import folded
import inputs
import queue_promises
import runlist
from inputs import (DOCUMENT_RUN, WRITER, cancel, header, read_count, read_count_high, read_record, step, write_count,
                    write_record)
from runlist import BODY_LENGTH, FOLDED, PLAIN, Refusal, digits_of, opened, printed, product, run, shown

NAMES = {PLAIN: "plain pages", FOLDED: "folded pages"}
failures = 0


def check(good, what):
    global failures
    if not good:
        failures += 1
        if failures <= 20:
            print("FAILED: %s" % what)


def same(found, expected, what):
    check(found == expected, "%s: %r, not %r" % (what, found, expected))


def count_steps(bases, layout):
    """The steps of a count write or read: document 02 folds two digits, and so two steps, into one."""
    return 2 * len(bases) - (1 if layout == FOLDED else 0)


# Documents 01 and 02.


def seen(page):
    """Of the count reads that have ended, in order: the reader, and the count shown."""
    return [(ended.reader, shown(ended)) for ended in page.ended]


def keeps(page, high, what):
    """Check that the stations of those readers, and no others, keep that the high end was named."""
    readers = range(page.form.readers)
    same([page.choice(reader) for reader in readers], [1 if reader in high else 0 for reader in readers], what + ": kept")


def edge(bases, a, b, line, counts, layout=PLAIN):
    """Check a count read on a page whose copies hold a and b: what it prints or, if there is no line, that it is refused; and
    the counts that it shows without a choice and with the high end named. No schedule brings copies to cross."""
    steps = count_steps(bases, layout)
    for choice, begin in enumerate((read_count, read_count_high)):
        page, _ = opened(header(bases), layout)
        for cell, digit in zip(page.c1 + page.c2, a + b):
            cell.byte = digit
        what = "%s, a = %s, b = %s, choice %d" % (NAMES[layout], a, b, choice)
        same(run(page, begin(0) + step(0) * steps), ([line], 1 + steps, 0) if line else ([], steps, 10), what)
        same(seen(page), [(0, counts[choice])] if line else [], what + ": shown")
        if not line:  # a refused step leaves the read as it is, until it is cancelled
            keeps(page, {0} if choice else set(), what)
            same(run(page, cancel(0)), ([], 1, 0), what + ": cancelled")
        keeps(page, set(), what)


def document():
    same(printed(DOCUMENT_RUN), "R 0 2 1 6262\nB 0 4 7\nEND 20 0\n", "the printed run")
    same(printed(b""), "END 0 2\n", "empty input")
    trap = header([10] * 3, readers=2, count=99) + (
        read_count(0) + step(0) * 3 + write_count(150) + WRITER * 6 + read_count(1) + step(1) * 6 + step(0) * 3)
    same(printed(trap), "C 1 150\nB 0 99 100\nEND 21 0\n", "the trap of two reads that overlap")
    # The copies, the line, and what is shown: without a choice, and with the high end named, of which document 01 tells.
    edges = (([10] * 3, [0, 0, 0], [1, 0, 0], "B 0 99 100", (99, 100)),
             ([10] * 3, [0, 9, 9], [1, 9, 9], "B 0 99 100", (99, 100)),
             ([24, 60], [11, 57], [12, 4], "B 0 719 720", (11 * 60 + 59, 12 * 60)),
             ([24, 60], [11, 57], [11, 59], "B 0 717 719", (11 * 60 + 57, 11 * 60 + 59)),
             ([24, 60], [11, 57], [11, 57], "C 0 717", (717, 717)), ([24, 60], [12, 4], [11, 57], None, None),
             ([10], [5], [7], "B 0 5 7", (5, 7)), ([10, 10], [0, 5], [3, 0], "B 0 9 30", (9, 30)))
    for row in edges:
        edge(*row)
    shared = (([10] * 3, [0, 0, 9], [1, 0, 9], "B 0 99 100", (99, 100)),
              ([10] * 3, [1, 4, 8], [1, 5, 8], "B 0 149 150", (149, 150)),
              ([24, 60], [11, 57], [11, 57], "C 0 717", (717, 717)), ([24, 60], [12, 4], [11, 4], None, None),
              ([10], [7], [7], "C 0 7", (7, 7)), ([10, 10], [0, 0], [3, 0], "B 0 9 30", (9, 30)))
    for row in shared:
        edge(*row, layout=FOLDED)
    page, _ = opened(header([10] * 3, n=2, count=123, first=b"ab"), FOLDED)
    same(page.bytes(), bytes([1, 2, 3, 1, 2, 0]) + b"ab" + bytes([0]), "a folded page")
    same(digits_of(9, [10]), [9], "digit of 9")
    same(printed(header(count=10)), "END 0 4\n", "count 10 with base 10")
    same(digits_of(2**64 - 1, [256] * 8), [255] * 8, "digits of the last count")
    top = header(records=[b"x"]) + (write_record(0) + WRITER * 3) * 9
    same(printed(top), "END 36 0\n", "version 9 with base 10")
    same(printed(top + write_record(0)), "END 36 9\n", "version 10 with base 10")
    print("documents: the printed run, the empty input, the trap, %d edges of the comparison and %d of folded pages, 5 of the "
          "numbers" % (len(edges), len(shared)))


# The choice of a count read. On this page every whole count read is between 99 and 100, for a write of 100 has filled c2 and
# waits: so 99 shows that no choice was kept, and 100 that the high end was. A count has six or five steps, a record three.

BETWEEN = header([10] * 3, readers=3, count=99, records=[b"b"]) + write_count(100)
WITHOUT, NAMED = (read_count, 99), (read_count_high, 100)
CHOICES = ((WITHOUT, WITHOUT), (WITHOUT, NAMED), (NAMED, WITHOUT), (NAMED, NAMED))


def choice_runs(w):
    """Lists of commands, each of them with the refusal that ends it, run one after another on such a page, with what the count
    reads must show in all of them; a count read has w steps."""
    absent = bytes([3])
    for (begin, count), (again, next_count) in CHOICES:
        whole, both = again(0) + step(0) * w, [(0, count), (0, next_count)]
        yield "ended", [(begin(0) + step(0) * w + whole, 0)], both
        yield "another's", [(begin(0) + step(0) * w + again(1) + step(1) * w, 0)], [(0, count), (1, next_count)]
        for taken in range(w):
            first, left = begin(0) + step(0) * taken, step(0) * (w - taken)
            yield "cancelled", [(first + cancel(0) + whole, 0)], [(0, next_count)]
            yield "in turns", [(first + again(1) + step(1) * w + left, 0)], [(1, next_count), (0, count)]
            yield "overlapping", [(first + again(2) + step(2) * (w - 1) + left + step(2), 0)], [(0, count), (2, next_count)]
            yield "another is cancelled", [(first + again(1) + step(1) + cancel(1) + left, 0)], [(0, count)]
            # What is refused says nothing of a choice, neither to this read nor to the next.
            for command, refusal in ((again(0), 6), (read_record(0, 1), 6), (again(0)[:1], 11), (again(0)[:1] + absent, 8),
                                     (step(1), 7), (write_count(100), 6), (b"\x08", 11), (b"\x0e", 11)):
                yield "refused %d" % refusal, [(first + command, refusal), (left + whole, 0)], both
        # Between begin and end there is all that others may do, and the write goes on to its end.
        others = (read_record(1, 1) + step(1) * 3 + again(2) + step(2) + cancel(2) + read_record(1, 2) + step(1) + again(2)
                  + step(2) * w + cancel(1))
        after = WRITER * (w - 3) + again(1) + step(1) * w
        yield "all others act", [(begin(0) + others + step(0) * 3 + others + after + step(0) * (w - 3), 0)], [
            (2, next_count), (2, next_count), (1, 100), (0, count)]
    for begin, count in (WITHOUT, NAMED):
        whole = begin(0) + step(0) * w
        record = read_record(0, 1) + step(0) * 3
        yield "after a record read", [(read_count_high(0) + cancel(0) + record + whole, 0)], [(0, count)]
        for taken in range(3):
            record = read_record(0, 1) + step(0) * taken
            for command in (read_count, read_count_high):
                yield "busy by a record read", [(record + command(0), 6), (step(0) * (3 - taken) + whole, 0)], [(0, count)]
            yield "after a cancelled record read", [(record + cancel(0) + whole, 0)], [(0, count)]
        yield "no such reader", [(begin(3), 8), (whole, 0)], [(0, count)]
        yield "no such reader, of 256", [(begin(255), 8), (whole, 0)], [(0, count)]
        yield "cut short", [(begin(0)[:1], 11), (whole, 0)], [(0, count)]
        yield "the write ends before the second copy", [(begin(0) + step(0) * 3 + WRITER * (w - 3) + step(0) * (w - 3), 0)], [
            (0, count)]
        yield "equal copies", [(WRITER * (w - 3) + whole, 0)], [(0, 100)]


def choices():
    """The choice is the reader's own, lasts as long as its read does, and no line tells it; only 0D names the high end."""
    runs = 0
    for layout in (PLAIN, FOLDED):
        for name, parts, expected in choice_runs(count_steps([10] * 3, layout)):
            what = "choice, %s, %s: %s" % (NAMES[layout], name, [commands.hex() for commands, _ in parts])
            page, at = opened(BETWEEN, layout)
            lines, _, _ = run(page, BETWEEN[at:] + WRITER * 3)
            high = set()  # readers whose unfinished read was begun by 0D
            for commands, refusal in parts:
                refusals = []
                for command in whole_commands(commands):
                    found, _, refused = run(page, command)
                    lines += found
                    refusals.append(refused)
                    if refused == 0 and command[0] == 13:
                        high.add(command[1])
                    elif refused == 0 and (found or command[0] == 7):
                        high.discard(command[1])
                    keeps(page, high, what)
                same(refusals, [0] * (len(refusals) - 1) + [refusal], what + ": refusals")
            same(seen(page), expected, what + ": shown")
            after_write = {"equal copies": 0, "all others act": 1}.get(name)  # the reader, if any, whose copies are equal
            wanted = [count_line(reader, [100] if reader == after_write else [99, 100]) for reader, _ in expected]
            same([line for line in lines if line[0] in "BC"], wanted, what + ": lines")
            runs += 1
    head = header([10] * 2, readers=2, count=5) + write_count(30) + WRITER * 2
    page, at = opened(head)
    same(run(page, head[at:] + read_count(0) + read_count_high(1) + (step(0) + step(1)) * 4)[0], ["B 0 9 30", "B 1 9 30"],
         "05 half turned into 30")
    same(seen(page), [(0, 9), (1, 30)], "05 half turned into 30: shown")
    known = [kind for kind in range(256) if run(opened(header())[0], bytes([kind]) + bytes(8))[1:] != (0, 11)]
    same(known, [1, 2, 3, 4, 5, 6, 7, 13], "the kinds of commands")
    print("choices of count reads: %d runs, 05 half turned into 30; of 256 kinds of commands 8 are known" % runs)


def whole_commands(commands):
    """The commands one by one; of one that is cut short or unknown, what there is."""
    while commands:
        length = 1 + BODY_LENGTH.get(commands[0], 0)
        yield commands[:length]
        commands = commands[length:]


# Oracles. Write j = 1, 2, ... takes the writer's steps from (j - 1) * w + 1 to j * w. What a load finds after s steps of the
# writer was stored by the last write that has taken its step for that place: write (s - k) // w + 1 if the place is the
# k-th that a write stores, and the opening if that is 0.


def writes_stored(s, k, w):
    return (s - k) // w + 1


def told(found, bases):
    """What a count read must print after its reader, if its loads found digits of the counts `found`, in this order; and the
    place in which a and b part, or None. The first m loads are a, from the left, and the last m are b, from the right: one of
    them is both if there are 2m - 1. It is told by whole numbers: `weight` counts begin alike up to a place, and of
    those that begin as a does the low end is the last, of those that begin as b does the high end is the first."""
    weights = [product(bases[i + 1:]) for i in range(len(bases))]
    a, b = (sum(count // weight % base * weight for count, weight, base in zip(counts, weights, bases))
            for counts in (found, found[::-1]))
    for place, weight in enumerate(weights):
        if a // weight != b // weight:
            return [(a // weight + 1) * weight - 1, b // weight * weight], place
    return [a], None


def count_oracle(bases, counts, times):
    """What a read must tell whose loads come after times[0], times[1], ... steps of the writer."""
    w = len(times)  # a read loads in the reverse order of stores
    return told([counts[writes_stored(s, w - i, w)] for i, s in enumerate(times)], bases)


def count_line(reader, numbers):
    return "%s %d %s" % ("C" if len(numbers) == 1 else "B", reader, " ".join(map(str, numbers)))


def spans(line, ended, reader, high, begun, what):
    """Check what a finished count read tells, in its line and by its choice, against the counts from the last whole before its
    first step to the last begun before its last step. This needs no digits: a count of equal copies is one of them, and is
    shown; of other copies two ends lie among them, and the high one is shown if the command that began the read named it,
    else the low one."""
    sort, numbers = (line or "nothing")[0], [int(number) for number in (line or "").split()[2:]]
    check(all(begun[0] <= number <= begun[-1] for number in numbers), "%s: %s leaves the span" % (what, line))
    if sort == "C":
        check(len(numbers) == 1 and numbers[0] in begun, "%s: %s shows what nobody began to write" % (what, line))
    else:
        check(sort == "B" and len(numbers) == 2 and numbers[0] < numbers[1], "%s: %s has no two ends" % (what, line))
    check(begun[0] <= shown(ended) <= begun[-1], "%s: the count shown, %d, leaves the span" % (what, shown(ended)))
    same((ended.reader, shown(ended)), (reader, (max if high else min)(numbers or [None])), "%s: %s, shown" % (what, line))


def schedule(writes, w, times, load=step(0)):
    """The writes in order, with a step of reader 0, or of those that are told, after each of the times."""
    out, taken = b"", 0
    for s in range(len(writes) * w + 1):
        if s:
            out += (writes[(s - 1) // w] if (s - 1) % w == 0 else b"") + WRITER
        while taken < len(times) and times[taken] == s:
            out += load
            taken += 1
    return out


def count_reads(bases, writes, layout):
    """All interleavings of a count read with so many count writes, for all counts. Two readers read side by side, one without
    a choice and one that names the high end; which of them does so changes from run to run."""
    w, runs, ended = count_steps(bases, layout), 0, Counter()
    for counts in combinations_with_replacement(range(product(bases)), writes + 1):
        commands = [write_count(count) for count in counts[1:]]
        for times in combinations_with_replacement(range(writes * w + 1), w):
            high = runs % 2  # the reader that names the high end
            begin = read_count_high(0) + read_count(1) if high == 0 else read_count(0) + read_count_high(1)
            data = header(bases, readers=2, count=counts[0]) + begin + schedule(commands, w, times, step(0) + step(1))
            page, at = opened(data, layout)
            lines, done, refusal = run(page, data[at:])
            last_whole, last_begun = times[0] // w, (times[-1] + w - 1) // w
            what = "%s, bases %s, counts %s, loads after %s" % (NAMES[layout], bases, counts, times)
            numbers, place = count_oracle(bases, counts, times)
            same(lines, [count_line(0, numbers), count_line(1, numbers)], what)
            same((done, refusal), (2 + writes * (w + 1) + 2 * w, 0), what + ": commands and refusal")
            same(seen(page), [(0, numbers[-1 if high == 0 else 0]), (1, numbers[-1 if high == 1 else 0])], what + ": shown")
            for reader, line in enumerate(lines):
                spans(line, page.ended[reader], reader, reader == high, counts[last_whole:last_begun + 1], what)
            runs += 1
            ended["met" if place is None and last_whole < last_begun else place] += 1
    # Copies part in a place of their own. With one step a read is over at once, and meets none.
    places = range(w - len(bases))
    all_ends = {None}.union(["met"] if w > 1 else [], places)
    check(set(ended) == all_ends, "%s, bases %s: not all ends, or others: %s" % (NAMES[layout], bases, ended))
    print("count reads of both choices, %s, bases %s, %d writes: %d runs against oracle and span; copies equal %d, and %d "
          "more that met a write; parted in place %s" % (NAMES[layout], bases, writes, runs, ended[None], ended["met"],
                                  ", ".join("%d: %d" % (place, ended[place]) for place in places) or "none"))


def record_reads(q, version_base, n, writes, first, allowed):
    """All interleavings of a record read with the writes after the first ones; no two records share a byte."""
    w = 2 * q + n
    records = [bytes(16 * j + i for i in range(n)) for j in range(writes + 1)]
    head = header([2], q, version_base, n, 1, 0, records[0], records[1:])
    commands = [write_record(j) for j in range(writes)]
    ends = Counter()
    for times in combinations_with_replacement(range(first * w, writes * w + 1), allowed * w):
        line = None
        for used in range(1, allowed + 1):
            attempt = times[(used - 1) * w:used * w]
            v2 = [digits_of(writes_stored(attempt[i], w - i, w), [version_base] * q)[i] for i in range(q)]
            v1 = [digits_of(writes_stored(attempt[w - 1 - i], i + 1, w), [version_base] * q)[i] for i in range(q)]
            held = bytes(records[writes_stored(attempt[q + i], q + i + 1, w)][i] for i in range(n))
            last_whole, last_begun = attempt[0] // w, (attempt[-1] + w - 1) // w
            check(v1 == v2 or last_whole < last_begun, "%s: an attempt that no write met is not accepted" % (times,))
            if v1 == v2:
                version = runlist.value(v1, [version_base] * q)
                line = "R 0 %d %d %s" % (used, version, held.hex())
                check(held == records[version], "%s: accepted and torn" % (times,))
                check(last_whole <= version <= last_begun, "%s: a record out of its time" % (times,))
                break
        ends[line[0] + str(used) if line else "G"] += 1
        data = head + read_record(0, allowed) + schedule(commands, w, times[:used * w])
        page, at = opened(data)
        what = "q %d, n %d, loads after %s" % (q, n, times)
        same(run(page, data[at:]), ([line or "G 0 %d" % allowed], 1 + writes * (w + 1) + used * w, 0), what)
        same(bytes(page.buffers[0]), held if line else bytes(n), what + ": the buffer")
    print("record reads, q %d, base %d, n %d, %d writes, %d allowed: %d runs against the oracle (accepted at once %d, "
          "by the second attempt %d, given up %d)" % (q, version_base, n, writes - first, allowed, sum(ends.values()), ends["R1"], ends["R2"], ends["G"]))


# The history of a run, told by its commands alone.


class Written:
    """What a write puts on the page, and the numbers of the commands that were its steps so far."""

    def __init__(self, what, steps=()):
        self.what, self.steps = what, list(steps)


def last_stored(writes, k, before):
    """Which of the writes is the last whose k-th step was taken before a command."""
    return next(i for i in reversed(range(len(writes))) if len(writes[i].steps) >= k and writes[i].steps[k - 1] < before)


def history(data, ends, layout):
    """Check each line of a run, and each count shown, against the writes and steps before it, and what is kept of choices;
    count in what ways reads end. Gives the kind of the refused command, or None."""
    try:
        page, at = opened(data, layout)
    except Refusal:
        return None
    other_choices = bytearray(data)
    form, done = page.form, int(printed(data, layout).split()[-2])
    whole = {1: count_steps(form.bases, layout), 2: 2 * form.q + form.n}
    # The opening is number 0, and stored all of both before the first command.
    writes = {1: [Written(page.count(), [0] * whole[1])], 2: [Written(bytes(runlist.held(page.record)), [0] * whole[2])]}
    reads, high = {}, set()  # of the readers whose read names the high end
    for index in range(1, done + 1):
        kind, body = data[at], data[at + 1:at + 1 + BODY_LENGTH[data[at]]]
        if kind in (4, 13):
            other_choices[at] = 17 - kind
        at += 1 + len(body)
        line = page.carry_out(kind, body)
        if kind in (1, 2):
            place = runlist.number(body)
            writes[kind].append(Written(place if kind == 1 else page.records[place]))
            write = writes[kind][-1]
        elif kind == 3:
            write.steps.append(index)
        elif kind in (4, 5, 13):
            reads[body[0]] = (2 if kind == 5 else 1, body[-1], [])
            if kind == 13:
                high.add(body[0])
        elif kind == 7:
            del reads[body[0]]
            ends["cancelled, high" if body[0] in high else "cancelled"] += 1
            high.discard(body[0])
        else:
            sort, allowed, steps = reads[body[0]]
            steps.append(index)
            expected = None
            if len(steps) % whole[sort] == 0:
                first = steps[-whole[sort]]
                used = len(steps) // whole[sort]
                last_whole, last_begun = last_stored(writes[sort], whole[sort], first), last_stored(writes[sort], 1, index)
                expected = "G %d %d" % (body[0], used) if used == allowed else None
                if sort == 1:
                    counts = [w.what for w in writes[1]]
                    found = [counts[last_stored(writes[1], whole[1] - i, s)] for i, s in enumerate(steps)]
                    numbers, place = told(found, form.bases)
                    spans(line, page.ended[-1], body[0], body[0] in high, counts[last_whole:last_begun + 1],
                          "command %d" % index)
                    expected = count_line(body[0], numbers)
                    count_end(ends, form.bases, place, last_whole < last_begun)
                    if place is not None:
                        ends["between, high shown" if body[0] in high else "between, low shown"] += 1
                        ends["between, low above the last whole count"] += numbers[0] > counts[last_whole]
                elif line is not None and line[0] == "R":
                    version = int(line.split()[3])
                    check(last_whole <= version <= last_begun, "command %d: record out of its time" % index)
                    expected = "R %d %d %d %s" % (body[0], used, version, writes[2][version].what.hex())
                    ends["accepted at once" if used == 1 else "accepted after a retry"] += 1
                else:
                    check(last_whole < last_begun, "command %d: an attempt that no write met is not accepted" % index)
                    ends["torn"] += 1
                    if expected:
                        check(not any(page.buffers[body[0]]), "command %d: torn bytes stay" % index)
                        ends["given up"] += 1
                if expected:
                    del reads[body[0]]
                    high.discard(body[0])
            same(line, expected, "command %d" % index)
        keeps(page, high, "command %d" % index)
    same(printed(bytes(other_choices), layout), printed(data, layout), "with the other choices")
    refused = data[at] if at < len(data) else None
    run(page, data[at:])
    keeps(page, high, "the refused command")
    return refused


def count_end(ends, bases, place, met):
    """Count in what way a count read ended: at which place its copies part, and on what bases."""
    if place is None:
        ends["shown in a race" if met else "shown at rest"] += 1
        return
    last = len(bases) - 1
    where = "only" if last == 0 else "first" if place == 0 else "last" if place == last else "middle"
    ends["parted in the %s place" % where] += 1
    if len(set(bases[place:])) > 1:
        ends["parted, mixed bases after"] += 1
    if bases == [256] * 8:
        ends["parted, widest counts"] += 1


def reached(refused, seeds, where):
    """Check that beginnings of count reads are refused, with a choice and without, and that there are unknown commands."""
    for refusal in (6, 8, 11):
        for kind in (4, 13):
            check(refused[refusal, kind] >= seeds // 400, "few commands %02x %s are refused by %d" % (kind, where, refusal))
    near = sum(refused[11, kind] for kind in (8, 9, 10, 11, 12, 14))
    check(near >= seeds // 150, "few unknown commands %s next to known ones" % where)


def generated(seeds):
    ends, refusals, refused = Counter(), Counter(), Counter()
    for seed in range(seeds):
        data = inputs.make(seed)
        same(inputs.make(seed), data, "seed %d made again" % seed)
        refusal = int(printed(data).split()[-1])
        refusals[refusal] += 1
        refused[refusal, history(data, ends, PLAIN)] += 1
    reached(refused, seeds, "on plain pages")
    for refusal in (0, 1, 2, 4, 5, 6, 7, 8, 9, 11):
        check(refusals[refusal] >= seeds // 100, "few inputs end with refusal %d" % refusal)
    for end in ("shown in a race", "parted in the only place", "parted in the first place", "parted in the middle place",
                "parted in the last place", "parted, mixed bases after", "parted, widest counts", "between, low shown",
                "between, high shown", "between, low above the last whole count", "accepted after a retry", "given up",
                "cancelled", "cancelled, high"):
        check(ends[end] >= seeds // 20, "few reads are %s" % end)
    check(not refusals[3] and not refusals[10] and not refusals[12], "3, 10 and 12 cannot be reached")
    print("%d generated inputs against their histories: %s" % (seeds, ", ".join("%s %d" % e for e in sorted(ends.items()))))
    print("they end with refusal " + ", ".join("%d: %d" % end for end in sorted(refusals.items())))


def generated_folded(seeds):
    ends, refusals, refused = Counter(), Counter(), Counter()
    for seed in range(seeds):
        data, _ = folded.make(seed)
        same(folded.make(seed)[0], data, "folded, seed %d made again" % seed)
        refusal = int(printed(data, FOLDED).split()[-1])
        refusals[refusal] += 1
        refused[refusal, history(data, ends, FOLDED)] += 1
    reached(refused, seeds, "on folded pages")
    for refusal in (0, 4, 5, 6, 7, 8, 11):
        check(refusals[refusal] >= seeds // 100, "few inputs on folded pages end with refusal %d" % refusal)
    for end in ("shown at rest", "shown in a race", "parted in the first place", "parted in the middle place",
                "parted, mixed bases after", "parted, widest counts", "between, low shown", "between, high shown",
                "between, low above the last whole count", "accepted at once", "cancelled", "cancelled, high"):
        check(ends[end] >= seeds // 20, "few reads on folded pages are %s" % end)
    check(not any(ends["parted in the %s place" % place] for place in ("only", "last")), "copies part in the shared digit")
    check(not refusals[3] and not refusals[10] and not refusals[12], "3, 10 and 12 cannot be reached on folded pages")
    print("%d generated inputs on folded pages: %s" % (seeds, ", ".join("%s %d" % e for e in sorted(ends.items()))))
    print("they end with refusal " + ", ".join("%d: %d" % end for end in sorted(refusals.items())))


def main():
    document()
    choices()
    count_reads([2, 3], 2, PLAIN)
    count_reads([2, 3, 2], 1, PLAIN)
    count_reads([3], 3, FOLDED)
    count_reads([2, 3], 3, FOLDED)
    count_reads([2, 3, 2], 1, FOLDED)
    record_reads(1, 10, 2, 2, 0, 2)
    record_reads(2, 2, 1, 3, 1, 1)  # the write that carries the version from 01 to 10, and the one after it
    record_reads(2, 2, 1, 2, 1, 2)
    generated(1500)
    generated_folded(600)
    check(queue_promises.check_right(), "the queue does not keep its promises")
    print("%d failed" % failures if failures else "all good")
    return 1 if failures else 0


if __name__ == "__main__":
    sys.exit(main())
