"""The picture of a run: time goes from left to right, one column for each command."""

from . import svg
from .acts import REFUSALS, plural
from .band import BAR, LEFT, MARGIN, Band
from .notes import drawn_line
from .order import order

MOST_COLUMNS = 40  # side by side; the rest goes on below
LEAST_WIDTH = 720
HEADING = "One column is one command; time goes from left to right. A box is one digit or byte that is written or read."
LEGEND = (  # the class that a picture must have for a line of the legend, and the line
    ("start", "a write is announced, or a read is begun"),
    ("count plain", "the count, in two copies, c1 and c2; an arrow tells in which direction a copy is gone over"),
    ("record plain", "the record (rec), between two versions, v1 and v2"),
    ("unequal", "an attempt to read the record that is not accepted: its versions differ"),
    ("accepted", "an attempt that is accepted: its versions are equal"),
    ("order", "the order of whole acts, which are record writes and accepted record reads"),
    ("cross", "a read is cancelled, or a command is refused"),
    ("line", "a line that runlist prints"),
)


def bands(columns):
    """The first and the last column of each band, of nearly equal lengths."""
    if not columns:
        return []
    count = -(-columns // MOST_COLUMNS)
    size = -(-columns // count)
    return [(first, min(first + size - 1, columns)) for first in range(1, columns + 1, size)]


def ending(run):
    """The end of a run, for people."""
    told = "%s carried out, " % plural(run.done, "command")
    return told + ("then refused by %d, %s" % (run.refusal, REFUSALS[run.refusal]) if run.refusal else "none refused")


def sample(css, x, y):
    """What the legend explains, as it looks in the picture."""
    if css == "start":
        return [svg.start(x + BAR / 2, y)]
    if css == "order":
        return svg.numbered(x + BAR / 2, y, 1)
    if css == "cross":
        return svg.cross(x + BAR / 2, y)
    if css == "line":
        return [svg.text("letters", x, y + 4, "END")]
    return [svg.rect(css, x, y - 6, BAR, 12)]


def legend(body, y):
    """The explanation of what the picture has; gives the elements and where they end."""
    elements = []
    for css, told in LEGEND:
        if 'class="%s"' % css in body:
            elements += sample(css, MARGIN, y) + [svg.text("told", MARGIN + BAR + 8, y + 4, told)]
            y += 19
    return elements, y


def picture(run, name):
    """The SVG of a run."""
    places = [(nth, column, act) for nth, (column, act) in enumerate(order(run), 1)]
    elements, y, width = [svg.text("heading", MARGIN, 24, name), svg.text("told", MARGIN, 42, HEADING)], 54, LEAST_WIDTH
    for first, last in bands(run.columns):
        band = Band(run, places, first, last, y)
        elements += band.elements
        y, width = band.bottom + 10, max(width, band.right + MARGIN)
    lines = run.lines()
    elements += [svg.text("line", MARGIN, y + 12, drawn_line(lines[-1])),
                 svg.text("told", LEFT + BAR, y + 12, ending(run))]
    explained, y = legend("\n".join(elements), y + 36)
    desc = "%s %s; runlist prints: %s." % (HEADING, ending(run), "; ".join(map(drawn_line, lines)))
    return svg.document(width, y, "The run of " + name, desc, elements + explained)
