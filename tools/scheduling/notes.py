"""The notes below a lane's bars: what each act is, how it ended, and what runlist prints of it."""

from . import svg
from .acts import REFUSED, brief

MOST_LETTERS = 60
LINE, LETTER = 14, 7.3  # height and width of text, a little more than it takes


def drawn_line(line):
    """A line of runlist as the picture has it."""
    return brief(line, MOST_LETTERS)


class Note:
    def __init__(self, act, x, ends_here):
        self.x = x
        wrong = " wrong" if act.sort == REFUSED else ""
        told = [("title" + wrong, brief(act.title, MOST_LETTERS))]
        if not ends_here:
            told.append(("told", "goes on below"))
        elif act.outcome:
            told.append(("told" + wrong, act.outcome))
        if ends_here and act.line:
            told.append(("line", drawn_line(act.line)))
        self.told = told
        self.right = x + max(len(text) for _, text in told) * LETTER + 8
        self.height = len(told) * LINE + 4

    def leader(self, bar, y):
        """What joins a note at y to its bar."""
        return svg.line("leader", self.x + 1, bar, self.x + 1, y + self.height - 4)

    def texts(self, y):
        return [svg.text(css, self.x + 5, y + nth * LINE - 2, text) for nth, (css, text) in enumerate(self.told, 1)]


def rows(notes):
    """Put notes below one another where they do not fit side by side."""
    found = []
    for note in notes:
        fitting = next((row for row in found if row[-1].right <= note.x), None)
        if fitting is None:
            found.append([note])
        else:
            fitting.append(note)
    return found


def draw(notes, bar):
    """All notes of a lane below its bars, from left to right; gives the elements and where they end."""
    leaders, texts, y = [], [], bar + 2
    for row in rows(notes):
        for note in row:
            leaders.append(note.leader(bar, y))
            texts += note.texts(y)
        y += max(note.height for note in row)
    return leaders + texts, y  # texts come last, so that no leader goes through them
