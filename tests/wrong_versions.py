"""Wrong versions of the sources, each put into a copy of them by itself."""
import contextlib
import pathlib
import shutil
import sys
import tempfile

ROOT = pathlib.Path(__file__).resolve().parent.parent


@contextlib.contextmanager
def copy_of_sources(*left_out):
    """A folder with the crates, without what is left out of each and what rt made there."""
    with tempfile.TemporaryDirectory() as place:
        folder = pathlib.Path(place) / "copy"
        folder.mkdir()
        shutil.copy(ROOT / "crates.txt", folder)
        shutil.copytree(ROOT / "crates", folder / "crates", ignore=shutil.ignore_patterns("out", *left_out))
        yield folder


@contextlib.contextmanager
def edited(folder, *edits, inside="crates"):
    """While it lasts the sources are wrong. An edit: a file, its right text, which must be there once, and the wrong one."""
    right = {}
    for file, old, new in edits:
        path = folder / inside / file
        text = path.read_text()
        right.setdefault(path, text)
        if text.count(old) != 1:
            sys.exit(f"{file}: {old!r} is not there once")
        path.write_text(text.replace(old, new))
    yield
    for path, text in right.items():
        path.write_text(text)


def try_all(versions, noticed):
    """Each version must be noticed, by a function of all that is told of it: first what is wrong."""
    missed = [what for what, *rest in versions if not noticed(what, *rest)]
    if missed:
        sys.exit("not noticed: " + "; ".join(missed))
    print(f"{len(versions)} wrong versions, each noticed")
