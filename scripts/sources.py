"""Reads the crates and writes what scripts make into documents. `heads`, `figure` and `contracts`
share it."""
import pathlib
import re
import sys
from typing import NamedTuple

TOP = pathlib.Path(__file__).resolve().parent.parent


def stands_on():
    """Each crate with the crates below it that `crates.txt` names, lowest first."""
    rows = {}
    for line in (TOP / "crates.txt").read_text().splitlines():
        if line and not line.startswith("#"):
            crate, below = line.split(":")
            rows[crate] = below.split()
    return {crate: [name for name in below if name in rows] for crate, below in rows.items()}


def crates():
    """The names of the crates, lowest first."""
    return list(stands_on())


def direct():
    """Each crate with those below it on which it doesn't stand through another one."""
    below = stands_on()
    return {crate: [one for one in names if not any(one in below[other] for other in names)]
            for crate, names in below.items()}


def root(crate):
    """The file with which a crate begins."""
    folder = TOP / "crates" / crate / "src"
    return folder / ("lib.rt" if (folder / "lib.rt").exists() else "main.rt")


def crate_head(crate):
    """The comment with which a crate begins, as one text."""
    lines = root(crate).read_text().splitlines()
    return " ".join(line[3:].strip() for line in lines if line.startswith("//!")).strip()


def sentences(text):
    """The sentences of a text. A point before a small letter ends none."""
    return [part.strip() for part in re.split(r"(?<=[.?])\s+(?=[A-Z`])", text) if part.strip()]


def first_sentence(text):
    """The first sentence of a text, up to its point."""
    match = re.search(r"\.(?=\s|$)", text)
    return text[:match.start()] if match else text


class Part(NamedTuple):
    """What a script writes between two markers of a document."""
    document: str
    name: str
    text: str


def markers(part):
    """The two lines between which a part stands."""
    return f"<!-- {part.name}: begin -->\n", f"<!-- {part.name}: end -->"


def with_part(whole, part):
    """A document with a part written anew."""
    begin, end = markers(part)
    if whole.count(begin) != 1 or whole.count(end) != 1:
        sys.exit(f"{part.document} has not one place for {part.name}")
    before, rest = whole.split(begin)
    return before + begin + "\n" + part.text.strip() + "\n\n" + end + rest.split(end)[1]


def write(parts):
    """Writes the parts into their documents."""
    for part in parts:
        path = TOP / part.document
        path.write_text(with_part(path.read_text(), part))


def stale(parts):
    """The parts that aren't what stands in their documents."""
    for part in parts:
        whole = (TOP / part.document).read_text()
        if with_part(whole, part) != whole:
            yield f"{part.name} in {part.document} isn't what the sources say"
