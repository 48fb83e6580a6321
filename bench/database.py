"""Reads databases, and what programs answer on them. The scripts of this folder share it."""
import re
from typing import NamedTuple

COMMENT = re.compile(rb"(?<!\S)\$\((?!\S).*?(?<!\S)\$\)(?!\S)", re.S)
THEOREM = re.compile(rb"(?<!\S)([^\s$]+)\s+\$p\s[^$]*\$=(?=\s)([^$]*)(?<=\s)\$\.(?!\S)")
STEP = re.compile(rb"[A-T]")  # the letter with which a number ends: Z is no step


class Theorem(NamedTuple):
    """A `$p` with a complete proof, and where that proof stands in the file."""
    label: str
    proof: bytes  # without comments
    start: int  # the place behind its `$=`
    end: int  # the place of its `$.`

    def steps(self):
        """How many steps its proof has, if that is compressed."""
        return steps(self.proof)

    def letters(self):
        """How many letters its proof has, if that is compressed."""
        return sum(len(word) for word in self.proof.partition(b")")[2].split())


def steps(proof):
    """How many steps a compressed proof has."""
    return len(STEP.findall(proof.partition(b")")[2]))


def theorems(text):
    """The theorems of a file with complete proofs, in their order."""
    bare = COMMENT.sub(lambda comment: b" " * len(comment[0]), text)
    return [Theorem(found[1].decode(), found[2], *found.span(2))
            for found in THEOREM.finditer(bare) if b"?" not in found[2]]


def ours(output):
    """The answer of `mm check`, cut to what the other program tells too."""
    lines = output.splitlines() or ["nothing"]
    return "no" if lines[0].startswith("no ") else lines[0]


def theirs(output):
    """The answer of metamath-exe, in the words of `mm check`."""
    if re.search(r"^\?(?!Warning)", output, re.M):
        return "no"
    counts = re.search(r"The source has (\d+) statements; \d+ are \$a and (\d+) are \$p\.", output)
    unproved = re.search(r"statement\(s\) were not proved:(.*?)^MM>", output, re.M | re.S)
    if counts and unproved:
        return f"incomplete {len(unproved[1].split())}"
    if counts and "All proofs in the database were verified" in output:
        return f"yes {counts[1]} statements {counts[2]} proofs"
    return "nothing"


def is_too_long(answer):
    """Whether `mm normal` refused a theorem since its normal proof has too many labels."""
    return answer.status == 4 and answer.output.startswith("ask L2 ")


def their_command(path):
    """The command by which metamath-exe checks a file."""
    return ["metamath", f"read '{path}'", "verify proof *", "exit"]
