"""The order of whole acts: one order of all record writes and accepted record reads, each at a point between its first
and its last step, in which every read holds the write before it."""

from .acts import RECORD
from .lines import Problem


def point(act, form):
    """The step by which an act enters the order, or None: a write enters with the first digit of v2 that it writes, an
    accepted read with the last that it reads, as docs/PROOF.md has it. No two acts share a step."""
    if act.sort != RECORD:
        return None
    if not act.reads:
        at = form.q + form.n
        return act.steps[at].column if len(act.steps) > at else None
    return act.attempts()[-1][form.q - 1].column if act.record is not None else None


def order(run):
    """The acts in their order, each with its point."""
    if run.page is None:
        return []
    points = [(point(act, run.page.form), act) for act in run.acts]
    found = sorted((pair for pair in points if pair[0] is not None), key=lambda pair: pair[0])
    check(found, run.first_record)
    return found


def check(found, first_record):
    """Every read holds version and record of the last write before it; before all writes, 0 and the first record."""
    held = 0, first_record
    for _, act in found:
        if not act.reads:
            held = act.version, act.record
        elif (act.version, act.record) != held:
            raise Problem("no order of whole acts: `%s` does not hold version %d before it" % (act.line, held[0]))
