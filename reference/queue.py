#!/usr/bin/env python3
"""Write recorded schedules of the hand-over queue, with every answer and what is left, into `data/queue.txt`, for the tests
of the library. The hand-made ones stand in the table below, each with the reason why it is there and with the answers that
it must get; generated ones follow. The file comes out the same each time; `--check` writes nothing, compares, and exits with
1 on a difference. `--promises` holds the reference to what wish 3 promises, and `--wrong` prints which promise each machine
breaks that is wrong on purpose."""

import random
import re
import sys
from pathlib import Path

import queue_promises
from queue_machine import IDLE, RECEIVER, SENDER, Queue, Side, blank
from runlist import Refusal, digits_of, product

FILE = Path(__file__).resolve().parent / "data" / "queue.txt"
GENERATED, DAMAGED = 90, 120

# A call of a schedule, the refusal that it is answered by, and how often it is made in a row.
CALL = re.compile(r"(O|S\d+|R|s-|r-|s|r)(?::(\d+))?(?:\*(\d+))?$")
LONGEST_RUN = 8  # of equal bytes that are written one by one

CLOCK = blank((24, 60), 3, 2, b"abcdefghi")  # hours and minutes; 7 steps
BIT = blank((2,), 1, 1, b"ab")  # one number above 0; 3 steps
BITS = blank((2, 2), 1, 1, b"ab")  # 5 steps
WIDEST = blank((256,) * 8, 1, 1, b"ab")  # 17 steps
LAST = 2**64 - 1
EVERY_CALL = ("S0", "s", "s-", "R", "r", "r-")
SENDS, RECEIVES = EVERY_CALL[:3], EVERY_CALL[3:]


def standing(memory, sent, received):
    """Both idle, so many sent and received, and each place filled with its own letter."""
    both = bytes(digits_of(sent, memory.bases) + digits_of(received, memory.bases))
    places = b"".join(bytes([65 + place % 26]) * memory.n for place in range(memory.places))
    return memory._replace(queue=both + places)


def sending(serial, steps, gathered=(), index=0, kind=1):
    return Side(serial, steps, kind, tuple(gathered) + (0,) * (8 - len(gathered)), index)


receiving = sending


def all_answer(calls, refusal):
    return " ".join("%s:%d" % (call, refusal) for call in calls)


# The table. Name, reason, what is lent, and the calls with their answers.

HAND_MADE = [
    # Whole hand-overs.
    ("hand-over", "one parcel, put in and then copied out", CLOCK, "O S0 s*7 R r*7"),
    ("two-in-order", "two parcels fill two places, and come out in order", CLOCK, "O S1 s*7 S2 s*7 R r*7 R r*7"),
    ("first-again", "the third parcel has the first place again", CLOCK, "O S0 s*7 R r*7 S1 s*7 R r*7 S2 s*7 R r*7"),
    ("steps-in-turn", "both in turns, the receiver begun late", CLOCK, "O S0 s*7 S1 R" + " s r" * 7),
    ("opening-over-garbage", "an opening does not ask what was there, and leaves records and buffer alone",
     CLOCK._replace(queue=b"\xff" * 10, sender=sending(LAST, LAST, range(8), LAST, 9),
                    receiver=receiving(7, 8, b"\xff" * 8, 0, LAST), records=b"abcd", buffer=b"x"), "O"),
    ("opening-again", "an opening in the midst of two acts", CLOCK, "O S0 s*7 S1 s*4 R r*5 O s:7 r:7"),
    ("nothing-pending", "no step and no cancel without an act", CLOCK, "O s:7 s-:7 r:7 r-:7"),
    ("ended", "after its last step an act is over", CLOCK, "O S0 s*7 s:7 s-:7 R r*7 r:7 r-:7"),
    ("busy", "one act of a side at a time; the other side may begin", CLOCK, "O S0 S1:6 R R:6 s S1:6 r R:6"),
    ("no-such-record", "three records: 0, 1 and 2", CLOCK, "O S3:8 S%d:8 S2" % LAST),
    ("no-records", "none is lent, and a receiver does not need any", standing(CLOCK._replace(records=b""), 1, 0),
     "S0:8 s:7 s-:7 R r*7"),
    ("no-such-before-busy", "8 before 6", CLOCK, "O S0 S3:8 S2:6"),
    ("number-fixed", "the number of an act is that of its beginning", standing(CLOCK, 59, 59), "S0 R s*7 r*7"),

    # Full and empty.
    ("full", "two places, and a third parcel: refused at the gathering's last digit, again and again", CLOCK,
     "O S0 s*7 S1 s*7 S2 s s:13*3 s-"),
    ("full-then-room", "a parcel is copied out, and the refused last digit is stepped again", CLOCK,
     "O S0 s*7 S1 s*7 S2 s s:13 R r*7 s*6"),
    ("full-until-last-digit", "the room is there with the last digit of received, and not with the last byte", CLOCK,
     "O S0 s*7 S1 s*7 S2 s s:13 R r*2 s:13 r*3 s:13 r s r"),
    ("empty", "refused at the gathering's last digit, again and again", CLOCK, "O R r r:14*3 r-"),
    ("empty-then-parcel", "a parcel is put in, and the refused last digit is stepped again", CLOCK, "O R r r:14 S0 s*7 r*6"),
    ("empty-until-last-digit", "the parcel is there with the last digit of sent, and not with the last byte", CLOCK,
     "O R r r:14 S0 s*5 r:14 s r s r"),
    ("full-only-seen", "01 becomes 10 after its first digit was gathered: 13, though the queue is empty; afresh it is not",
     standing(BITS, 2, 1), "S0 s s:13 R r*5 s:13 s- S0 s*5"),
    ("full-after-both", "01 is 00 for a moment: 13 while a parcel is copied out already", standing(BITS, 2, 1),
     "R r*4 S0 s s:13 r s:13 s- S0 s*2"),
    ("empty-only-seen", "01 becomes 10 after its first digit was gathered: 14, though a parcel is in; afresh it is found",
     standing(BITS, 1, 1), "R r S0 s*5 r:14 r:14 r- R r*5"),
    ("empty-not-strange", "less gathered than received is 14, and no strange mark", standing(CLOCK, 60, 100), "R r r:14 r-"),
    ("strange-received", "more received than sent, and the sender finds it; nothing is altered",
     standing(CLOCK, 100, 101), "S0 s s:3 s:3 s-"),
    ("strange-before-full", "3 before 13, and one place", standing(BITS, 0, 3), "S0 s s:3"),
    ("strange-and-empty", "of the same two numbers a sender says 3, and a receiver 14", standing(BITS, 2, 3),
     "S0 s s:3 R r r:14"),
    ("far-behind", "received is far below sent: full", standing(CLOCK, 1000, 0), "S0 s s:13"),
    ("just-full", "P behind", standing(CLOCK, 70, 68), "S0 s s:13"),
    ("just-room", "P - 1 behind", standing(CLOCK, 70, 69), "S0 s*7"),
    ("just-one", "one parcel", standing(CLOCK, 70, 69), "R r*7"),
    ("carry-left", "59 becomes 60: the right digit first, then the left", standing(CLOCK, 59, 59), "S0 s*6 s R r*6 r"),

    # Tops.
    ("one-bit", "one parcel in all, and then the number is at its top", BIT, "O S0 s*3 S0:9 R r*3 R r:14 r-"),
    ("busy-before-top", "6 before 9: a sending is unfinished over a number at its top",
     standing(BIT, 1, 1)._replace(sender=sending(0, 2)), "S0:6 s S0:9"),
    ("no-such-before-top", "8 before 9", standing(BIT, 1, 0), "S2:8 S1:9"),
    ("clock-top", "23:58 becomes 23:59, the last number; what was sent is still received", standing(CLOCK, 1438, 1438),
     "S0 s*7 S1:9 R r*7 R r r:14"),
    ("widest-top", "the last number of eight bases 256 is the last of 64 bits", standing(WIDEST, LAST - 1, LAST - 1),
     "S1 s*17 S0:9 R r*17 R r*7 r:14*2 r- S1:9"),
    ("widest-carry", "all digits but the first change", standing(WIDEST, 2**56 - 1, 2**56 - 1), "S1 s*10 R s*7 r*17"),
    ("widest-behind", "the greatest distance", standing(WIDEST, LAST - 1, 0), "S0 s*7 s:13"),
    ("widest-strange", "one above", standing(WIDEST, LAST - 1, LAST), "S0 s*7 s:3"),
    ("widest-over-top", "a sending over the top is no state", standing(WIDEST, LAST, 0)._replace(sender=sending(LAST, 0)),
     all_answer(SENDS, 3)),
    ("widest-at-top", "a gathering at the top is a receiver's state, up to its last digit",
     standing(WIDEST, LAST, LAST)._replace(receiver=receiving(LAST, 7, (255,) * 7)), "R:6 r:14 r-"),
    ("widest-beyond-top", "and no further", standing(WIDEST, LAST, LAST)._replace(receiver=receiving(LAST, 8)),
     all_answer(RECEIVES, 3)),
    ("widest-place", "the place of a number of 64 bits", standing(blank((256,) * 8, 1, 7, b"z"), LAST - 1, LAST - 3),
     "S0 s*17 R r*17 R r*17 R r*17"),
    ("one-digit-256", "m = 1, base 256: the steps up to the top", standing(blank((256,), 2, 3, b"uv"), 254, 252),
     "S0 s*4 S0:9 R r*4 R r*4 R r*4 R r:14"),

    # Sizes.
    ("longest-parcel", "n = 256", blank((10,), 256, 1, bytes(range(256)) * 2), "O S1 s*258 R r*258"),
    ("largest-queue", "n = 256 and P = 64, in the last place",
     standing(blank((10, 10), 256, 64, bytes(range(255, -1, -1))), 63, 63), "S0 s*260 R r*260"),
    ("all-places", "64 parcels fill 64 places", blank((100,), 1, 64, b"pq"),
     "O" + " S0 s*3 S1 s*3" * 32 + " S0 s:13 R r*3 s*2"),
    ("one-place", "P = 1: a parcel in, a parcel out", blank((4, 4), 1, 1, b"pq"), "O" + " S0 s*5 S1 s s:13 s- R r*5" * 4),
    ("many-digits", "eight bases of 2: 16 digits", blank((2,) * 8, 2, 3, b"pqrs"),
     "O S0 s*18 S1 s*18 R r*18 R r*18 R r*7 r:14"),
]


def cancels():
    """Every number of steps, and then a cancel: up to m it is one, and from the first byte on there is none."""
    for steps in range(8):
        answer = "" if steps <= 2 else ":7"
        yield ("send-cancel-%d" % steps, "%d steps of a sending, then its cancel" % steps, CLOCK,
               "O S0 s*%d s-%s" % (steps, answer) if steps else "O S0 s-")
        yield ("receive-cancel-%d" % steps, "%d steps of a receiving, then its cancel" % steps, standing(CLOCK, 1, 0),
               "R r*%d r-%s" % (steps, answer) if steps else "R r-")


def formats():
    """Numbers outside their ranges: refusal 1 before any other, in every call."""
    wrong = CLOCK._replace(queue=b"\xff", records=b"a", buffer=b"", sender=sending(0, 99), receiver=receiving(0, 99))
    changes = [("no-bases", dict(bases=())), ("nine-bases", dict(bases=(2,) * 9)), ("base-1", dict(bases=(24, 1))),
               ("base-0", dict(bases=(0, 60))), ("base-257", dict(bases=(257, 60))), ("n-0", dict(n=0)),
               ("n-257", dict(n=257)), ("n-huge", dict(n=LAST)), ("places-0", dict(places=0)), ("places-65", dict(places=65)),
               ("places-huge", dict(places=2**63))]
    for name, change in changes:
        yield ("format-" + name, "refusal 1 before 2 and 3", wrong._replace(**change), all_answer(("O",) + EVERY_CALL, 1))


def lengths():
    """Refusal 2, before 3; each side's calls look at their own lengths."""
    strange = sending(0, 99)
    for name, length in ("short", 9), ("long", 11), ("empty", 0):
        yield ("queue-" + name, "the queue has not 2m + P n bytes, and strange digits and states",
               CLOCK._replace(queue=b"\xff" * length, sender=strange, receiver=strange), all_answer(("O",) + EVERY_CALL, 2))
    yield ("records-cut", "records that end in the middle concern the sender alone",
           standing(CLOCK, 1, 0)._replace(records=b"abcd", sender=strange), all_answer(SENDS, 2) + " R r*7")
    digits = CLOCK._replace(queue=b"\x18" + bytes(9))
    yield ("records-before-digits", "2 of the records before 3 of the digits", digits._replace(records=b"abcd"),
           all_answer(SENDS, 2) + " " + all_answer(RECEIVES, 3))
    yield ("buffer-before-digits", "2 of the buffer before 3 of the digits", digits._replace(buffer=b"xy"),
           all_answer(RECEIVES, 2) + " " + all_answer(SENDS, 3))
    for name, buffer in ("short", b"xy"), ("long", b"wxyz"), ("empty", b""):
        yield ("buffer-" + name, "a buffer of another length concerns the receiver alone",
               CLOCK._replace(buffer=buffer, receiver=strange), "S0 s*7 " + all_answer(RECEIVES, 2))


def strange_digits():
    """A digit at its base, and one below: every call of both sides looks at both numbers."""
    for at, base in enumerate(CLOCK.bases * 2):
        for digit in base - 1, base, 255:
            queue = bytearray(CLOCK.queue)
            queue[at] = digit
            if digit >= base:
                yield ("digit-%d-is-%d" % (at, digit), "no digit of that base", CLOCK._replace(queue=bytes(queue)),
                       all_answer(EVERY_CALL, 3))
            else:
                yield ("digit-%d-is-%d" % (at, digit), "the last digit of that base", CLOCK._replace(queue=bytes(queue)),
                       "S0 s s- R r r-")


def strange_states():
    """States that no steps hold, and those next to them that some do; over 24, 60 with n = 3 an act has 7 steps, and the
    last number is 1439."""
    good = [("begun-at-last", sending(1438, 0)), ("last-step", sending(1438, 6)), ("one-gathered", sending(5, 1, (23,))),
            ("gathered-zero", sending(5, 1)), ("all-gathered", sending(5, 2)), ("last-record", sending(5, 0, (), 2))]
    bad = [("idle-serial", sending(1, 0, (), 0, 0)), ("idle-steps", sending(0, 1, (), 0, 0)),
           ("idle-digit", sending(0, 0, (1,), 0, 0)), ("idle-last-digit", sending(0, 0, (0,) * 7 + (1,), 0, 0)),
           ("kind-2", sending(0, 0, (), 0, 2)), ("kind-256", sending(0, 0, (), 0, 256)),
           ("kind-257", sending(0, 0, (), 0, 257)), ("kind-far", sending(0, 0, (), 0, 2**32 + 1)),
           ("kind-huge", sending(0, 0, (), 0, 2**63)), ("steps-7", sending(0, 7)), ("steps-far", sending(0, 2**32)),
           ("steps-huge", sending(0, LAST)), ("serial-over", sending(1440, 0)), ("serial-far", sending(2**32, 0)),
           ("serial-huge", sending(LAST, 0)), ("digit-at-base", sending(0, 1, (24,))), ("digit-early", sending(0, 0, (1,))),
           ("digit-behind", sending(0, 1, (1, 1))), ("digit-outside", sending(0, 1, (1, 0, 1))),
           ("digit-kept", sending(0, 2, (1,))), ("digit-last-place", sending(0, 1, (0,) * 7 + (1,))),
           ("digit-late", sending(0, 5, (0, 1))), ("at-last-gathered", sending(1439, 2)),
           ("at-last-moved", sending(1439, 5))]
    own_bad = [("begun-over-last", sending(1439, 0)), ("no-such-record", sending(5, 0, (), 3)),
               ("idle-index", sending(0, 0, (), 1, 0)), ("index-far", sending(5, 0, (), 2**32)),
               ("index-huge", sending(5, 0, (), LAST))]
    both = standing(CLOCK, 5, 5)
    for name, state in good:
        yield ("sender-" + name, "a sender's state", both._replace(sender=state), "S0:6")
        if not state.index:
            yield ("receiver-" + name, "a receiver's state", both._replace(receiver=state), "R:6")
    yield "receiver-at-last", "a gathering at the last number", both._replace(receiver=receiving(1439, 1)), "R:6 r:14"
    for name, state in bad:
        # The other side does not look at it.
        yield ("sender-" + name, "no sender's state", both._replace(sender=state), all_answer(SENDS, 3) + " R r r:14 r-")
        yield ("receiver-" + name, "no receiver's state", both._replace(receiver=state),
               "S0 s s- " + all_answer(RECEIVES, 3))
    for name, state in own_bad:
        yield "sender-" + name, "no sender's state", both._replace(sender=state), all_answer(SENDS, 3)
    yield ("records-gone", "the record of a sending is not lent any more", both._replace(sender=sending(5, 3), records=b""),
           all_answer(SENDS, 3))
    yield ("strange-before-no-such", "3 before 8", both._replace(sender=sending(0, 7)), "S9:3")


def hand_made():
    yield from HAND_MADE
    for more in cancels, formats, lengths, strange_digits, strange_states:
        yield from more()


# Generated ones.


def some_format(rng):
    """Standing at a number just before a carry into one of its digits, or before the top."""
    bases = tuple(rng.choice((2, 3, 3, 10, 60, 255, 256)) for _ in range(rng.choice((1, 2, 2, 3, 3, 4, 5, 8))))
    n, places = rng.choice((1, 1, 2, 3, 8)), rng.choice((1, 1, 2, 3, 5, 64))
    memory = blank(bases, n, places, bytes(rng.randrange(256) for _ in range(rng.randint(1, 4) * n)))
    carry = product(bases[rng.choice((0, 1, 1, len(bases) - 1)):])
    received = max(carry - rng.randint(1, 4), 0)
    sent = min(received + rng.randint(0, places), product(bases) - 1)
    return standing(memory, sent, received)


def some_calls(rng, memory, most):
    """The calls of a schedule in turns of both sides, and what they leave."""
    machine, calls = Queue(), []
    records = len(memory.records) // memory.n
    for _ in range(most):
        who = rng.choice((SENDER, RECEIVER))
        for _ in range(rng.choice((1, 1, 2, 3, memory.n, 2 * len(memory.bases) + memory.n))):
            idle = (getattr(memory, who) == IDLE) != (rng.random() < 0.03)
            begin = "S%d" % rng.randrange(records + (rng.random() < 0.1)) if who == SENDER else "R"
            call = begin if idle else who[0] + ("-" if rng.random() < 0.04 else "")
            memory, refusal = answered(machine, memory, call)
            calls.append((call, refusal))
            if refusal in (9, 14) and rng.random() < 0.8:
                break
    return calls, memory


def damaged(rng, memory):
    """One thing that is lent is another."""
    what = rng.choice(("queue", "queue", "sender", "receiver", "sender", "receiver", "length", "format"))
    if what == "queue":
        queue = bytearray(memory.queue)
        queue[rng.randrange(2 * len(memory.bases))] = rng.choice((1, 2, 3, 59, 60, 254, 255))
        return memory._replace(queue=bytes(queue))
    if what in (SENDER, RECEIVER):
        side, field = getattr(memory, what), rng.choice(("serial", "steps", "kind", "digits", "index"))
        if field == "digits":
            new = list(side.digits)
            new[rng.randrange(8)] = rng.choice((0, 1, 2, 60, 255))
            return memory._replace(**{what: side._replace(digits=tuple(new))})
        edge = {"serial": product(memory.bases), "steps": 2 * len(memory.bases) + memory.n, "kind": 2, "index": 4}[field]
        number = 0 if (what, field) == (RECEIVER, "index") else rng.choice((0, 1, edge - 2, edge - 1, edge, LAST)) % 2**64
        return memory._replace(**{what: side._replace(**{field: number})})
    if what == "length":
        which = rng.choice(("queue", "records", "buffer"))
        length = max(0, len(getattr(memory, which)) + rng.choice((-1, 1, 2)))
        return memory._replace(**{which: (getattr(memory, which) + b"\x01\x01")[:length]})
    return memory._replace(**{rng.choice(("n", "places")): rng.choice((0, 1, 2, 65, 257))})


def generated():
    for seed in range(GENERATED):
        rng = random.Random(seed)
        memory = some_format(rng)
        yield "seed-%d" % seed, "generated, both sides mixed", memory, spelled(some_calls(rng, memory, 25)[0])
    for seed in range(GENERATED, GENERATED + DAMAGED):
        rng = random.Random(seed)
        memory = some_format(rng)
        memory = damaged(rng, some_calls(rng, memory, rng.randint(1, 6))[1])
        calls = rng.sample(EVERY_CALL, len(EVERY_CALL))
        yield "seed-%d" % seed, "generated, something is damaged", memory, spelled(replayed(memory, calls)[0])


# Schedules as text.


def answered(machine, memory, call):
    """What a call leaves, and its refusal or 0."""
    who = RECEIVER if call[0] in "Rr" else SENDER
    try:
        if call == "O":
            return machine.open(memory), 0
        if call[0] in "SR":
            return machine.begin(memory, who, int(call[1:] or 0)), 0
        return (machine.cancel if call.endswith("-") else machine.step)(memory, who), 0
    except Refusal as refusal:
        return memory, refusal.number


def replayed(memory, calls):
    answers, machine = [], Queue()
    for call in calls:
        memory, refusal = answered(machine, memory, call)
        answers.append((call, refusal))
    return answers, memory


def runs(items):
    """Each item with the number of its equals in a row."""
    found = []
    for item in items:
        if found and found[-1][0] == item:
            found[-1][1] += 1
        else:
            found.append([item, 1])
    return found


def spelled(answers):
    """Calls with their answers as one line."""
    return " ".join(call + (":%d" % refusal if refusal else "") + ("*%d" % times if times > 1 else "")
                    for (call, refusal), times in runs(answers))


def read(line):
    """The calls of a line, one by one, with their answers."""
    for token in line.split():
        call, refusal, times = CALL.match(token).groups()
        yield from [(call, int(refusal or 0))] * int(times or 1)


def hexadecimal(data):
    """Bytes, with a long run of equal ones as one of them and its length; `-` if there are none."""
    parts, plain = [], ""
    for byte, times in runs(data):
        if times <= LONGEST_RUN:
            plain += "%02x" % byte * times
        else:
            parts += [plain] * bool(plain) + ["%02x*%d" % (byte, times)]
            plain = ""
    return " ".join(parts + [plain] * bool(plain)) or "-"


def state(side):
    return "%d %d %d %s" % (side.serial, side.steps, side.kind, bytes(side.digits).hex())


def changing(memory):
    """The lines of what calls may change."""
    return ["queue " + hexadecimal(memory.queue), "sender %s %d" % (state(memory.sender), memory.sender.index),
            "receiver " + state(memory.receiver), "buffer " + hexadecimal(memory.buffer)]


def block(name, reason, memory, line):
    """A schedule with what is lent, its calls with their answers, and what is left."""
    calls = list(read(line))
    answers, left = replayed(memory, [call for call, _ in calls])
    assert answers == calls, "%s: %s" % (name, spelled(answers))
    bases = ",".join(map(str, memory.bases)) or "-"
    lines = ["# %s: %s" % (name, reason), "format %s %d %d" % (bases, memory.n, memory.places),
             "records " + hexadecimal(memory.records)] + changing(memory) + ["calls " + spelled(answers)] + changing(left)
    return "".join(line + "\n" for line in lines)


def text():
    """The number of schedules, and the whole file."""
    schedules = list(hand_made()) + list(generated())
    names = [name for name, _, _, _ in schedules]
    assert len(set(names)) == len(names)
    return len(schedules), "\n".join(block(*schedule) for schedule in schedules)


def main(arguments):
    if arguments == ["--promises"]:
        return 0 if queue_promises.check_right() else 1
    if arguments == ["--wrong"]:
        return 0 if queue_promises.check_wrong() else 1
    count, wanted = text()
    if arguments == ["--check"]:
        same = FILE.exists() and FILE.read_text() == wanted
        print("%d schedules of the queue, %s" % (count, "as recorded" if same else "DIFFERENT from those recorded"))
        return 0 if same else 1
    if arguments:
        sys.exit("usage: queue.py [--check | --promises | --wrong]")
    FILE.write_text(wanted)
    print("%d recorded schedules of the queue, %d bytes" % (count, len(wanted)))
    return 0


if __name__ == "__main__":
    sys.exit(main(sys.argv[1:]))
