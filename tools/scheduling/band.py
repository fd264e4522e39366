"""A band of a picture: the columns that stand side by side, and the lanes in which something is done there."""

from . import notes, svg
from .acts import NOBODY, RECORD, REFUSED, WRITER

COLUMN, LEFT, MARGIN = 22, 88, 14
BAR, PARTS, ORDER = 22, 12, 20  # heights: of a bar, of the parts' names above it, of the order's numbers above these
GAP = 1  # at each end of a bar, so that two bars side by side are not one
NUMBERS = 16  # height of the numbers of the columns


def place_of_lane(lane):
    """The writer stands above the readers, and what nobody did below them."""
    return {WRITER: -1, NOBODY: 256}.get(lane, lane)


def digit(step):
    """What a step moved: a digit as a number, and a byte of a record as a letter, or in hexadecimal if it is none."""
    if not step.part.startswith("rec"):
        return str(step.byte)
    return chr(step.byte) if 0x21 <= step.byte <= 0x7E else "%02x" % step.byte


class Band:
    def __init__(self, run, places, first, last, top):
        self.run, self.first, self.last, self.top = run, first, last, top
        self.elements, self.right = [], self.x(last + 1)
        acts = [act for act in run.acts if act.begun <= last and run.last_column(act) >= first]
        y = top + NUMBERS
        for lane in sorted({act.lane for act in acts}, key=place_of_lane):
            y = self.draw_lane(lane, [act for act in acts if act.lane == lane], places, y)
        self.bottom = y
        self.elements = self.grid() + self.elements

    def x(self, column):
        return LEFT + (column - self.first) * COLUMN

    def middle(self, column):
        return self.x(column) + COLUMN / 2

    def has(self, column):
        return self.first <= column <= self.last

    def grid(self):
        """The columns, some with their numbers, and a line at the refused command."""
        out = []
        for column in range(self.first, self.last + 1):
            if column == self.first or column % 5 == 0:
                out.append(svg.text("small middle", self.middle(column), self.top + 10, str(column)))
            out.append(svg.line("grid", self.x(column), self.top + 14, self.x(column), self.bottom))
        if self.run.columns > self.run.done and self.has(self.run.columns):
            x = self.middle(self.run.columns)
            out.append(svg.line("refused", x, self.top + 14, x, self.bottom))
        return out

    def draw_lane(self, lane, acts, places, y):
        """A lane from y on; gives where the next one begins."""
        numbers = [(nth, column) for nth, column, act in places if act in acts and self.has(column)]
        y += (ORDER if numbers else 4) + PARTS
        self.elements.append(svg.text("lane", MARGIN, y + 15, lane if lane in (WRITER, NOBODY) else "reader %d" % lane))
        self.elements.append(svg.line("rail", LEFT, y + BAR / 2, self.x(self.last + 1), y + BAR / 2))
        for act in acts:
            self.draw_act(act, y)
        for nth, column in numbers:
            self.elements += svg.numbered(self.middle(column), y - PARTS - 9, nth)
        elements, y = notes.draw([self.note(act) for act in acts], y + BAR)
        self.elements += elements
        return y + 4

    def note(self, act):
        note = notes.Note(act, self.x(max(act.begun, self.first)), self.has(self.run.last_column(act)))
        self.right = max(self.right, note.right)
        return note

    def draw_act(self, act, y):
        if act.sort == REFUSED:
            self.elements += svg.cross(self.middle(act.begun), y + BAR / 2)
            return
        self.draw_bar(act, y)
        if act.reads and act.sort == RECORD:
            self.draw_attempts(act, y)
        if self.has(act.begun):
            self.elements.append(svg.start(self.middle(act.begun), y + BAR / 2))
        part = None
        for step in act.steps:
            if self.has(step.column):
                self.draw_step(act.sort, step, step.part != part, y)
                part = step.part
        if act.outcome == "cancelled" and self.has(act.ended):
            self.elements += svg.cross(self.middle(act.ended), y + BAR / 2)

    def draw_bar(self, act, y):
        """A bar; it is open where it goes on in another band, and where its act is unfinished."""
        last = self.run.last_column(act)
        left, right = self.x(max(act.begun, self.first)) + GAP, self.x(min(last, self.last) + 1) - GAP
        self.elements.append(svg.rect(act.sort + " plain", left, y, right - left, BAR))
        edges = [(left, y, right, y), (left, y + BAR, right, y + BAR)]
        if self.has(act.begun):
            edges.append((left, y, left, y + BAR))
        if act.ended and self.has(last):
            edges.append((right, y, right, y + BAR))
        self.elements += [svg.line(act.sort, *edge) for edge in edges]

    def draw_attempts(self, act, y):
        """The attempts that came to their ends, the accepted one told from the others."""
        found = [attempt for attempt in act.attempts() if len(attempt) == len(act.parts)]
        for nth, attempt in enumerate(found, 1):
            first, last = max(attempt[0].column, self.first), min(attempt[-1].column, self.last)
            if first <= last:
                accepted = nth == len(found) and act.record is not None
                left, right = self.x(first) + GAP, self.x(last + 1) - GAP
                self.elements.append(svg.rect("accepted" if accepted else "unequal", left, y, right - left, BAR))

    def draw_step(self, sort, step, named, y):
        self.elements.append(svg.rect(sort + " box", self.x(step.column) + 2, y + 3, COLUMN - 4, BAR - 6))
        self.elements.append(svg.text("digit", self.middle(step.column), y + 15, digit(step)))
        if named:
            self.elements.append(svg.text("part middle", self.middle(step.column), y - 3, step.part))
