"""What wish 3 promises of every schedule from an opening, held against the history of its calls: of all schedules in small
formats, and of random ones in others. A machine that is wrong on purpose must be found out; the list of them is below."""

import random
from collections import Counter, deque, namedtuple

from queue_machine import BYTE, GATHER, IDLE, RECEIVER, SENDER, Queue, blank, gathering, moving, number, other, writing
from runlist import Refusal

# The promises, by the name that a breach of them gets.
PROMISES = {
    "order": "the parcels copied out are the first of those put in, in order, byte for byte",
    "bounds": "those put in less those copied out stay between 0 and P",
    "truly": "a gathering that the other side leaves alone is refused only when the queue is full, or empty",
    "strange": "refusal 3 is never met",
    "numbers": "the k-th act that ends has number k - 1, and leaves k",
    "places": "parcel number i is put into place i mod P",
}

# All formats in which the schedules are gone through: bases, n, P.
SMALL = [((2, 2), 1, 1), ((2, 2), 2, 1), ((2, 2), 1, 2), ((2, 2), 2, 2), ((4,), 2, 2), ((2, 2), 1, 3), ((3, 2), 1, 2)]
RECORD_BYTES = b"abcdefgh"
RANDOM_SCHEDULES, RANDOM_CALLS = 300, 400
ENOUGH = 3000  # moments of a format, to find out a wrong machine: it may have no end of them

# After some calls: the memory, the parcels put in and copied out, the acts that have ended by side, and the sides whose
# gathering the other side has left alone so far.
Moment = namedtuple("Moment", "memory put out ended alone")


class Breach(Exception):
    """A promise does not hold."""


def hold(promise, condition):
    if not condition:
        raise Breach(promise)


def opened(machine, bases, n, places, records):
    memory = machine.open(blank(bases, n, places, records)._replace(queue=b"\x01" * (2 * len(bases) + places * n)))
    return Moment(memory, (), (), (0, 0), frozenset())


def calls(memory):
    """All calls that can be made: of a side and, to begin a sending, of a record."""
    for index in range(len(memory.records) // memory.n):
        yield "begin", SENDER, index
    yield "begin", RECEIVER
    for who in SENDER, RECEIVER:
        yield "step", who
        yield "cancel", who


def called(machine, moment, call):
    """The moment after a call, and its refusal or 0. A promise that the call breaks raises its breach."""
    what, who = call[:2]
    motion = next_motion(machine, moment.memory, who) if what == "step" else None
    if motion and motion[0] == GATHER and not gathered(machine, moment.memory, who):
        moment = moment._replace(alone=moment.alone | {who})
    try:
        memory = getattr(machine, what)(moment.memory, *call[1:])
    except Refusal as refusal:
        refused(machine, moment, who, refusal.number)
        return moment, refusal.number
    after = moment._replace(memory=memory)
    if what == "step":
        after = stepped(moment, after, who, motion)
    return after, 0


def next_motion(machine, memory, who):
    side = getattr(memory, who)
    return machine.plan(who, len(memory.bases), memory.n)[side.steps] if side.kind else None


def refused(machine, moment, who, refusal):
    hold("strange", refusal != 3)
    if refusal in (13, 14) and who in moment.alone and not moved(machine, moment.memory, other(who)):
        hold("truly", len(moment.put) - len(moment.out) == (moment.memory.places if refusal == 13 else 0))


def motions(machine, memory, who):
    """What the side's unfinished act has done so far."""
    side = getattr(memory, who)
    return [motion for motion, _ in machine.done(memory, who, side)] if side.kind else []


def gathered(machine, memory, who):
    return GATHER in motions(machine, memory, who)


def moved(machine, memory, who):
    """Whether the side's act is beyond its gathering."""
    return any(motion != GATHER for motion in motions(machine, memory, who))


def stepped(moment, after, who, motion):
    after = after._replace(alone=after.alone - {other(who)})
    if motion == (BYTE, after.memory.n - 1):
        after = last_byte(moment, after, who)
    if getattr(after.memory, who) == IDLE:
        after = act_ended(moment, after, who)
    return after


def last_byte(moment, after, who):
    """A parcel is put in or copied out."""
    memory, side = after.memory, getattr(moment.memory, who)
    if who == SENDER:
        parcel = memory.records[side.index * memory.n:][:memory.n]
        place = 2 * len(memory.bases) + len(moment.put) % memory.places * memory.n
        hold("places", memory.queue[place:place + memory.n] == parcel)
        after = after._replace(put=after.put + (parcel,))
    else:
        after = after._replace(out=after.out + (memory.buffer,))
    hold("bounds", 0 <= len(after.put) - len(after.out) <= memory.places)
    hold("order", after.out == after.put[:len(after.out)])
    return after


def act_ended(moment, after, who):
    ended = tuple(count + (who == side) for side, count in zip((SENDER, RECEIVER), after.ended))
    k = ended[who == RECEIVER]
    hold("numbers", getattr(moment.memory, who).serial == k - 1 and number(after.memory, who) == k)
    return after._replace(ended=ended)


def all_schedules(machine, bases, n, places, enough=None):
    """How many moments all schedules of a format have, how often each refusal was met, and each breach. No schedule goes on
    behind a breach. With `enough` moments it ends; the shortest schedules are gone through first."""
    first = opened(machine, bases, n, places, RECORD_BYTES[:2 * n])
    seen, todo, refusals, breaches = {first}, deque([first]), Counter(), Counter()
    while todo and (enough is None or len(seen) < enough):
        moment = todo.popleft()
        for call in calls(moment.memory):
            try:
                after, refusal = called(machine, moment, call)
            except Breach as breach:
                breaches[str(breach)] += 1
                continue
            refusals[refusal] += 1
            if after not in seen:
                seen.add(after)
                todo.append(after)
    return len(seen), refusals, breaches


def random_schedule(machine, seed, refusals):
    """The breach of a random schedule, or None. Turns are long or short, so that a side stalls anywhere in its act."""
    rng = random.Random(seed)
    bases = [rng.choice((2, 2, 3, 5, 256)) for _ in range(rng.randint(1, 8))]
    n, places = rng.choice((1, 2, 3, 8)), rng.choice((1, 2, 3, 7, 64))
    moment, left = opened(machine, bases, n, places, bytes(rng.randrange(256) for _ in range(5 * n))), RANDOM_CALLS
    whole = 2 * len(bases) + n + 1
    while left > 0:
        who = rng.choice((SENDER, RECEIVER))
        for _ in range(rng.choice((1, 1, 2, whole - 1, whole, 3 * whole))):
            idle = getattr(moment.memory, who) == IDLE
            what = "cancel" if rng.random() < 0.02 else "begin" if idle else "step"
            call = (what, who, rng.randrange(5)) if (what, who) == ("begin", SENDER) else (what, who)
            try:
                moment, refusal = called(machine, moment, call)
            except Breach as breach:
                return str(breach)
            refusals[refusal] += 1
            left -= 1
    return None


# Machines that are wrong on purpose.


class WrittenLeftToRight(Queue):
    """the number is written left to right"""

    def plan(self, who, m, n):
        return gathering(m) + moving(n) + writing(m)[::-1]


class GatheredRightToLeft(Queue):
    """the other's number is gathered right to left"""

    def plan(self, who, m, n):
        return gathering(m)[::-1] + moving(n) + writing(m)

    def pending(self, memory, who, side):
        return True  # its digits are kept in their own places, and so the right machine would not know its states


class FullAboveP(Queue):
    """full only with more than P"""

    def full(self, sent, received, places):
        return sent - received > places


class FullBelowP(Queue):
    """full with one less than P already"""

    def full(self, sent, received, places):
        return sent - received >= places - 1


class EmptyBelow(Queue):
    """empty only if less was sent than received"""

    def empty(self, sent, received):
        return sent < received


class EmptyAtOne(Queue):
    """empty with one parcel in it too"""

    def empty(self, sent, received):
        return sent <= received + 1


class BytesFirst(Queue):
    """the bytes are moved before the gathering"""

    def plan(self, who, m, n):
        return moving(n) + gathering(m) + writing(m)


class NextPlace(Queue):
    """the sender takes place v + 1 mod P"""

    def place(self, who, serial, places):
        return (serial + (who == SENDER)) % places


class BothNextPlace(Queue):
    """both take place v + 1 mod P"""

    def place(self, who, serial, places):
        return (serial + 1) % places


class NumberEarly(Queue):
    """the number is written before the last byte"""

    def plan(self, who, m, n):
        return gathering(m) + moving(n)[:-1] + writing(m) + moving(n)[-1:]


class SenderNumberEarly(NumberEarly):
    """the sender's number is written before the last byte"""

    def plan(self, who, m, n):
        return (NumberEarly if who == SENDER else Queue).plan(self, who, m, n)


class ReceiverNumberEarly(NumberEarly):
    """the receiver's number is written before the last byte"""

    def plan(self, who, m, n):
        return (NumberEarly if who == RECEIVER else Queue).plan(self, who, m, n)


class LateCancel(Queue):
    """an act may be cancelled after a byte"""

    def may_cancel(self, done):
        return True


class RaisedByTwo(Queue):
    """the number is raised by two"""

    def next(self, serial):
        return serial + 2


class StrangeAtEqual(Queue):
    """all sent were received, and that is called strange"""

    def strange(self, sent, received):
        return received >= sent


# Each with the promise that it must be found to break.
WRONG = [
    (WrittenLeftToRight, "bounds"), (GatheredRightToLeft, "strange"), (FullAboveP, "bounds"), (FullBelowP, "truly"),
    (EmptyBelow, "bounds"), (EmptyAtOne, "truly"), (BytesFirst, "bounds"), (NextPlace, "places"), (BothNextPlace, "places"),
    (NumberEarly, "bounds"), (SenderNumberEarly, "bounds"), (ReceiverNumberEarly, "order"), (LateCancel, "bounds"),
    (RaisedByTwo, "numbers"), (StrangeAtEqual, "strange"),
]


def broken(machine, enough=None):
    """How often which promise is broken in all schedules of the small formats and in random ones, how many moments those
    have, and which refusals were met."""
    moments, breaches, refusals = 0, Counter(), Counter()
    for bases, n, places in SMALL:
        more_moments, more_refusals, more_breaches = all_schedules(machine, bases, n, places, enough)
        moments += more_moments
        refusals += more_refusals
        breaches += more_breaches
    for seed in range(RANDOM_SCHEDULES if enough is None else RANDOM_SCHEDULES // 10):
        breach = random_schedule(machine, seed, refusals)
        if breach:
            breaches[breach] += 1
    return moments, breaches, refusals


def check_right():
    """Whether the right machine keeps all promises, with every refusal that a schedule can meet among what it answered."""
    moments, breaches, refusals = broken(Queue())
    print("all schedules of %d small formats, %d moments, and %d random ones: calls answered %s; broken: %s" % (
        len(SMALL), moments, RANDOM_SCHEDULES, ", ".join("%d: %d" % answer for answer in sorted(refusals.items())),
        ", ".join(sorted(breaches)) or "nothing"))
    return not breaches and set(refusals) == {0, 6, 7, 9, 13, 14}


def check_wrong():
    """Whether each wrong machine is found to break the promise that stands beside it, and each promise is broken by one."""
    good = {promise for _, promise in WRONG} == set(PROMISES)
    for kind, promise in WRONG:
        _, breaches, _ = broken(kind(), ENOUGH)
        good &= promise in breaches
        print("%s: %s %s" % (kind.__doc__, "breaks" if promise in breaches else "DOES NOT BREAK %s, only" % promise,
                             ", ".join(sorted(breaches)) or "nothing"))
    return good
