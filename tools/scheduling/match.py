"""Which line of a schedule some words are."""

from functools import lru_cache

from .lines import FORMS, WIDTHS, Problem, is_number, most


def slot(form, place):
    """What stands at a place of a line: a word, the name of a number or list in brackets, or None after its end."""
    parts = form.split()
    if place >= len(parts) and is_list(parts[-1]):
        return parts[-1]
    return parts[place] if place < len(parts) else None


def is_list(part):
    return part.startswith("<") and part[1:-1] not in WIDTHS


def fits(part, word):
    if part is None or not part.startswith("<"):
        return part == word
    return is_list(part) or is_number(word)


def expected(forms, place):
    """What may stand at a place, for people."""
    found = []
    for form in forms:
        part = slot(form, place)
        if part is None:
            told = "the end of the line, or `x` and a number"
        elif part.startswith("<"):
            told = "a number (%s, 0 to %d)" % (part[1:-1], most(part[1:-1]))
        else:
            told = "`%s`" % part
        if told not in found:
            found.append(told)
    return found[0] if len(found) == 1 else "%s or %s" % (", ".join(found[:-1]), found[-1])


@lru_cache(maxsize=1024)  # the same lines come again and again
def form_of(words):
    """The line that these words are, a tuple; what stands in a list is not looked at."""
    left = FORMS
    for place, word in enumerate(words):
        fitting = [form for form in left if fits(slot(form, place), word)]
        if not fitting:
            raise Problem("`%s` is not known here: expected %s" % (word, expected(left, place)))
        left = fitting
    for form in left:
        end = slot(form, len(words))
        if end is None or is_list(end):
            return form
    raise Problem("the line ends too early: expected %s" % expected(left, len(words)))
