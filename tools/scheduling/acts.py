"""The acts of a run: its writes, its reads and the command that was refused, each with its steps and how it ended. They
are found by carrying out the schedule on the page of the reference."""

import sys
from collections import namedtuple
from pathlib import Path

from .words import command_words, commands, raw_words, record_words

sys.path.append(str(Path(__file__).resolve().parents[2] / "reference"))
import runlist as reference  # noqa: E402  the reference is no package

WRITER, NOBODY = "writer", "no one"  # lanes; the others are readers
COUNT, RECORD, REFUSED = "count", "record", "refused"  # sorts of acts
REFUSALS = {1: "bad format", 2: "wrong length", 3: "invalid state", 4: "count too large", 5: "count decreases",
            6: "busy", 7: "nothing pending", 8: "no such reader, record or number of attempts", 9: "versions exhausted",
            10: "copies crossed", 11: "unknown command", 12: "log full"}
ARROWS = "\u2192\u2190"  # a part's name tells in which direction it is gone over, if it has more than one place

Step = namedtuple("Step", "column part byte")  # the number of its command, where on the page, and what was moved


class Act:
    """A write, a read or a refused command."""

    def __init__(self, lane, sort, begun, title, parts=()):
        self.lane, self.sort, self.begun, self.title = lane, sort, begun, title
        self.parts = parts  # of the page, in the order of the steps of a write, a count read or an attempt
        self.steps = []
        self.ended = None  # the column of its end; none while it is unfinished
        self.outcome = "unfinished"
        self.line = None  # what runlist prints of it
        self.version = self.record = None  # of a record write or an accepted record read

    def step(self, column, byte):
        self.steps.append(Step(column, self.parts[len(self.steps) % len(self.parts)], byte))

    def end(self, column, outcome):
        self.ended, self.outcome = column, outcome

    def attempts(self):
        """The steps of each attempt of a record read."""
        whole = len(self.parts)
        return [self.steps[at:at + whole] for at in range(0, len(self.steps), whole)]

    @property
    def reads(self):
        return self.lane not in (WRITER, NOBODY)


class Run:
    """A run of a schedule: its acts in the order of their beginnings, and how it ended."""

    def __init__(self, data):
        self.acts, self.done, self.refusal = [], 0, 0
        self.unfinished = {}  # the act of each lane that has one
        try:
            self.page, at = reference.opened(data)
        except reference.Refusal as refusal:
            self.page, self.refusal = None, refusal.number
            return
        self.first_record = bytes(reference.held(self.page.record))
        for command in commands(data[at:]):
            self.carry_out(command)
            if self.refusal:
                return

    @property
    def columns(self):
        """One for each command carried out, and one for a refused one."""
        return self.done + any(act.sort == REFUSED for act in self.acts)

    def last_column(self, act):
        return act.ended or self.columns

    def ends(self):
        """The acts of which runlist prints a line, in its order."""
        return sorted((act for act in self.acts if act.line), key=lambda act: act.ended)

    def lines(self):
        """All that runlist prints."""
        return [act.line for act in self.ends()] + ["END %d %d" % (self.done, self.refusal)]

    def carry_out(self, command):
        lane = lane_of(command)
        byte = self.next_byte(lane)
        lines, done, self.refusal = reference.run(self.page, command.data)
        self.done += done
        if self.refusal:
            self.refuse(command, lane)
        elif command.kind in (reference.WRITER_STEP, reference.READER_STEP):
            self.step(lane, byte, lines)
        elif command.kind == reference.CANCEL:
            self.unfinished.pop(lane).end(self.done, "cancelled")
        else:
            self.begin(command, lane)

    def next_byte(self, lane):
        """What a lane's next step moves: a byte to be stored or one to be loaded."""
        if lane == WRITER:
            return self.page.stores[0][1] if self.page.stores else None
        act = self.unfinished.get(lane)
        return self.page.reads[lane].loads[0][0].byte if act else None

    def refuse(self, command, lane):
        words = command_words(command) if command.kind else raw_words(command.data[:8])[0]
        act = Act(lane, REFUSED, self.done + 1, words)
        act.end(self.done + 1, "refused by %d, %s" % (self.refusal, REFUSALS[self.refusal]))
        self.acts.append(act)

    def begin(self, command, lane):
        form = self.page.form
        m, q, n = len(form.bases), form.q, form.n
        if command.kind == reference.WRITE_COUNT:
            act = Act(lane, COUNT, self.done, command_words(command), rising("c2", m) + falling("c1", m))
        elif command.kind == reference.WRITE_RECORD:
            parts = rising("v1", q) + rising("rec", n) + falling("v2", q)
            act = Act(lane, RECORD, self.done, command_words(command), parts)
            act.version, act.record = self.page.version() + 1, self.page.records[command.numbers[0]]
            act.title += ": %s, version %d" % (brief(record_words(act.record)), act.version)
        elif command.kind == reference.READ_RECORD:
            allowed = plural(command.numbers[1], "attempt")
            parts = rising("v2", q) + rising("rec", n) + falling("v1", q)
            act = Act(lane, RECORD, self.done, "record read, %s allowed" % allowed, parts)
        else:
            title = "count read" + ", high end named" * (command.kind == reference.READ_COUNT_HIGH)
            act = Act(lane, COUNT, self.done, title, rising("c1", m) + falling("c2", m))
        self.acts.append(act)
        self.unfinished[lane] = act

    def step(self, lane, byte, lines):
        act = self.unfinished[lane]
        act.step(self.done, byte)
        if lane == WRITER and not self.page.stores:
            self.unfinished.pop(lane).end(self.done, None)
        elif lines:
            act.line = lines[0]
            self.unfinished.pop(lane).end(self.done, self.told(act, lines[0].split()))

    def told(self, act, line):
        """How a read ended, for people."""
        if line[0] == "C":
            return "shows %s" % line[2]
        if line[0] == "B":
            return "between %s and %s: shows %d" % (line[2], line[3], reference.shown(self.page.ended[-1]))
        if line[0] == "G":
            return "gave up after %s" % plural(int(line[2]), "attempt")
        act.version, act.record = int(line[3]), bytes.fromhex(line[4])
        return "attempt %s accepted: %s, version %s" % (line[2], brief(record_words(act.record)), line[3])


def lane_of(command):
    if command.kind is None:
        return NOBODY
    writes = (reference.WRITE_COUNT, reference.WRITE_RECORD, reference.WRITER_STEP)
    return WRITER if command.kind in writes else command.numbers[0]


def rising(part, length):
    """The steps of a part that is gone over from left to right."""
    return [part + ARROWS[0] * (length > 1)] * length


def falling(part, length):
    return [part + ARROWS[1] * (length > 1)] * length


def plural(count, word):
    return "%d %s%s" % (count, word, "" if count == 1 else "s")


def brief(text, most=40):
    """Long text is cut, and shows that it is."""
    return text if len(text) <= most else text[:most - 1] + "\u2026"
