"""The hand-over queue in plain Python, written from document 02's wish 3 and from the message buffer of the 1977 paper; it
shares nothing with the proved code. An act is a list of single motions, its plan, and a step makes the next of them. A call
takes the memory that is lent and gives the memory that it leaves; a refused one raises, so that it can alter nothing. What
a wrong machine may do otherwise stands in methods of its own."""

from collections import namedtuple

from runlist import digits_of, need, product, value

SENDER, RECEIVER = "sender", "receiver"
GATHER, BYTE, DIGIT = "gather", "byte", "digit"  # the motions: of the other's number, of the parcel, of one's own number
MOST_DIGITS, MOST_BASE, MOST_BYTES, MOST_PARCELS = 8, 256, 256, 64

# A side's state. A receiver has no index; here it is 0 always.
Side = namedtuple("Side", "serial steps kind digits index")
NO_DIGITS = (0,) * MOST_DIGITS
IDLE = Side(0, 0, 0, NO_DIGITS, 0)

# All that is lent: the format, the queue's bytes, both states, and what each side lends besides.
Memory = namedtuple("Memory", "bases n places queue sender receiver records buffer")


def blank(bases, n, places, records=b""):
    """Zeros in the lengths that a good format asks."""
    return Memory(tuple(bases), n, places, bytes(2 * len(bases) + places * n), IDLE, IDLE, records, bytes(n))


def other(who):
    return RECEIVER if who == SENDER else SENDER


def start(memory, who):
    """Where a side's number begins."""
    return 0 if who == SENDER else len(memory.bases)


def digits(memory, who):
    return memory.queue[start(memory, who):][:len(memory.bases)]


def number(memory, who):
    """Sent is the sender's number, and received the receiver's."""
    return value(digits(memory, who), memory.bases)


def with_byte(data, at, byte):
    return data[:at] + bytes([byte]) + data[at + 1:]


def check_format(memory):
    need(1 <= len(memory.bases) <= MOST_DIGITS, 1)
    need(all(2 <= base <= MOST_BASE for base in memory.bases), 1)
    need(1 <= memory.n <= MOST_BYTES and 1 <= memory.places <= MOST_PARCELS, 1)


def check_queue(memory):
    need(len(memory.queue) == 2 * len(memory.bases) + memory.places * memory.n, 2)


def check_lent(memory, who):
    """What a side lends besides the queue."""
    need(len(memory.records) % memory.n == 0 if who == SENDER else len(memory.buffer) == memory.n, 2)


def check_numbers(memory):
    need(all(digit < base for who in (SENDER, RECEIVER) for digit, base in zip(digits(memory, who), memory.bases)), 3)


class Queue:
    """The right machine."""

    # What wrong machines do otherwise.

    def plan(self, who, m, n):
        """The motions of an act, in order."""
        return gathering(m) + moving(n) + writing(m)

    def full(self, sent, received, places):
        return sent - received >= places

    def empty(self, sent, received):
        return sent <= received

    def strange(self, sent, received):
        """To a sender: more were received than sent."""
        return received > sent

    def place(self, who, serial, places):
        return serial % places

    def next(self, serial):
        return serial + 1

    def may_cancel(self, done):
        return not any(motion == BYTE for motion, _ in done)

    # The calls.

    def open(self, memory):
        check_format(memory)
        check_queue(memory)
        return memory._replace(queue=bytes(len(memory.queue)), sender=IDLE, receiver=IDLE)

    def begin(self, memory, who, index=0):
        side = self.checked(memory, who)
        need(who == RECEIVER or index < len(memory.records) // memory.n, 8)
        need(side == IDLE, 6)
        serial = number(memory, who)
        need(who == RECEIVER or serial < product(memory.bases) - 1, 9)
        return memory._replace(**{who: Side(serial, 0, 1, NO_DIGITS, index)})

    def step(self, memory, who):
        side = self.checked(memory, who)
        need(side != IDLE, 7)
        plan = self.plan(who, len(memory.bases), memory.n)
        motion, at = plan[side.steps]
        memory = getattr(self, motion)(memory, who, side, at)
        steps = side.steps + 1
        return memory._replace(**{who: IDLE if steps == len(plan) else getattr(memory, who)._replace(steps=steps)})

    def cancel(self, memory, who):
        side = self.checked(memory, who)
        need(side != IDLE and self.may_cancel(self.done(memory, who, side)), 7)
        return memory._replace(**{who: IDLE})

    # The motions of a step.

    def gather(self, memory, who, side, at):
        found = with_byte(bytes(side.digits), at, digits(memory, other(who))[at])
        if self.plan(who, len(memory.bases), memory.n)[side.steps + 1][0] != GATHER:
            self.check_gathered(memory, who, side.serial, value(found, memory.bases))
            found = NO_DIGITS
        return memory._replace(**{who: side._replace(digits=tuple(found))})

    def check_gathered(self, memory, who, own, found):
        if who == SENDER:
            need(not self.strange(own, found), 3)
            need(not self.full(own, found, memory.places), 13)
        else:
            need(not self.empty(found, own), 14)

    def byte(self, memory, who, side, at):
        place = 2 * len(memory.bases) + self.place(who, side.serial, memory.places) * memory.n
        if who == SENDER:
            return memory._replace(queue=with_byte(memory.queue, place + at, memory.records[side.index * memory.n + at]))
        return memory._replace(buffer=with_byte(memory.buffer, at, memory.queue[place + at]))

    def digit(self, memory, who, side, at):
        new = digits_of(self.next(side.serial), memory.bases)
        return memory._replace(queue=with_byte(memory.queue, start(memory, who) + at, new[at]))

    # Refusals 1 to 3 of a side's calls.

    def checked(self, memory, who):
        """The side's state, if nothing is wrong with what its calls are lent."""
        check_format(memory)
        check_queue(memory)
        check_lent(memory, who)
        check_numbers(memory)
        side = getattr(memory, who)
        need(side == IDLE or side.kind == 1 and self.pending(memory, who, side), 3)
        return side

    def pending(self, memory, who, side):
        """Whether steps could hold a state of kind 1."""
        m = len(memory.bases)
        if side.steps >= len(self.plan(who, m, memory.n)):
            return False
        gathered = sum(motion == GATHER for motion, _ in self.done(memory, who, side))
        # A sending, and a receiving that found a parcel, will raise the number.
        most = product(memory.bases) - (1 if who == RECEIVER and gathered < m else 2)
        kept = gathered if gathered < m else 0
        return (side.serial <= most and not any(side.digits[kept:])
                and all(digit < base for digit, base in zip(side.digits[:kept], memory.bases))
                and (who == RECEIVER or side.index < len(memory.records) // memory.n))

    def done(self, memory, who, side):
        """The motions made so far."""
        return self.plan(who, len(memory.bases), memory.n)[:side.steps]


def gathering(m):
    return [(GATHER, i) for i in range(m)]


def moving(n):
    return [(BYTE, j) for j in range(n)]


def writing(m):
    return [(DIGIT, i) for i in reversed(range(m))]
