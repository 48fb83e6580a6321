"""Makes databases that are to hurt the questions, in any size. `bench/hostile` asks them.

Each maker takes a size, writes its files into a folder as the size says, and tells the questions: the
words, with the status that is due.
"""
import pathlib
from typing import NamedTuple

OVER = 21  # doublings of a symbol: more than an expression may have
LONG = 13  # doublings of a symbol: a long expression
LINE = 73  # letters of a compressed proof on a line
HEAD = "$c |- a b $. $v x y z $. fx $f a x $. fy $f a y $. fz $f a z $.\n"


class Question(NamedTuple):
    """What is asked, and the status that is due."""
    words: list
    status: int


def asked(status, *commands):
    """The questions of commands, with one status."""
    return [Question(words.split(), status) for words in commands]


def write(folder, name, *parts):
    """Writes a file of parts."""
    with open(pathlib.Path(folder, name), "w", encoding="ascii") as file:
        for part in parts:
            file.writelines([part] if isinstance(part, str) else part)


def blocks(folder, size):
    """A theorem in blocks inside each other, each with a hypothesis and two `$d`."""
    opened = (f"${{ $d x y $. $d x z $. e{at} $e |- x y $.\n" for at in range(size))
    write(folder, "f.mm", HEAD, opened, "th $p |- x y $= e0 $.\n", "$} " * size, "\n")
    write(folder, "bad.mm", HEAD,
          (f"${{ $d x y $. $d x z $. e{at} $e |- x y $.\n" for at in range(size)),
          "th $p |- x y $= fx $.\n", "$} " * size, "\n")
    write(folder, "proof.txt", "e0\n")
    write(folder, "wrong.txt", "fx fy\n")
    return [*asked(0, "check f.mm", "statement th f.mm", "show --uses th f.mm",
                   "show --essential th f.mm", "show --known --letters th f.mm", "users th f.mm",
                   "axioms --all f.mm", "why f.mm", "faults f.mm", "try th proof.txt f.mm",
                   "minimize th f.mm", "minimize --list f.mm"),
            *asked(1, "try th wrong.txt f.mm", "why bad.mm", "faults bad.mm",
                   "show --known th bad.mm")]


def hypotheses(folder, size):
    """An axiom of many hypotheses, and a theorem by it; then with one of them wrong, or too few."""
    axiom = ["${ ", *(f"h{at} $e |- x $.\n" for at in range(size)), "big $a |- x $. $}\n",
             "${ k $e |- x $. o $e |- y $.\n"]

    def theorem(middle):
        half = "k " * (size // 2)
        return [f"th $p |- x $= fx {half}", middle, "k " * (size - size // 2 - 1), "big $. $}\n"]

    write(folder, "f.mm", HEAD, axiom, theorem("k "))
    write(folder, "few.mm", HEAD, axiom, theorem(""))
    write(folder, "wrong.mm", HEAD, axiom, theorem("o "))
    write(folder, "few.txt", "fx ", "k " * (size - 2), "big\n")
    return [*asked(0, "check f.mm", "statement big f.mm", "show --uses th f.mm",
                   "show --essential th f.mm", "show --known --letters th f.mm", "users big f.mm",
                   "minimize th f.mm"),
            *asked(1, "why few.mm", "why wrong.mm", "show --known th wrong.mm", "faults wrong.mm",
                   "try th few.txt f.mm")]


def distinct(folder, size):
    """A theorem of so many variables, all of which are apart, and as many that its proof has."""
    names = [f"v{at}" for at in range(size)]
    others = [f"w{at}" for at in range(size)]
    declared = [f"$c |- a $. $v {' '.join(names + others)} $.\n",
                *(f"f{name} $f a {name} $.\n" for name in names + others)]
    write(folder, "f.mm", declared, f"$d {' '.join(names)} $. $d {' '.join(others)} $.\n",
          f"ax $a |- {' '.join(names)} $.\n",
          f"th $p |- {' '.join(names)} $= {' '.join('f' + name for name in names)} ax $.\n")
    return asked(0, "check f.mm", "statement th f.mm", "statement ax f.mm", "show --uses th f.mm",
                 "axioms --all f.mm")


def lacking(folder, size):
    """A step that asks so many variables to be apart, of which no `$d` says so."""
    names = [f"v{at}" for at in range(size)]
    declared = [f"$c |- a $. $v {' '.join(names)} $.\n",
                *(f"f{name} $f a {name} $.\n" for name in names)]
    proof = f"{' '.join('f' + name for name in names)} ax"
    write(folder, "f.mm", declared, f"${{ $d {' '.join(names)} $. ax $a |- {' '.join(names)} $. $}}\n",
          f"th $p |- {' '.join(names)} $= {proof} $.\n")
    write(folder, "proof.txt", proof)
    return asked(1, "faults f.mm", "why f.mm", "show --known th f.mm", "try th proof.txt f.mm")


def wide_values(folder, size):
    """A step that asks two variables to be apart, whose values have so many variables each."""
    names = [f"v{at}" for at in range(size)]
    others = [f"w{at}" for at in range(size)]
    declared = [f"$c |- a $. $v {' '.join(names + others)} x y $.\nfx $f a x $. fy $f a y $.\n",
                *(f"f{name} $f a {name} $.\n" for name in names + others),
                "cat $a a x y $.\n", "${ $d x y $. ax $a |- x y $. $}\n"]

    def joined(variables):
        return " ".join("f" + name for name in variables) + " cat" * (len(variables) - 1)

    proof = f"{joined(names)} {joined(others)} ax"
    write(folder, "f.mm", declared, f"th $p |- {' '.join(names + others)} $= {proof} $.\n")
    write(folder, "proof.txt", proof)
    return asked(1, "faults f.mm", "why f.mm", "show --known th f.mm", "try th proof.txt f.mm")


def long_values(folder, size):
    """A step that asks two variables to be apart, whose values are one variable each, so often."""
    head = f"{HEAD}cat $a a x y $. ${{ $d x y $. ax $a |- x y $. $}}\n"
    theorem = ["th $p |- ", "x " * size, "y " * size, "$= ",
               "fx " * size, "cat " * (size - 1), "fy " * size, "cat " * (size - 1), "ax $.\n"]
    write(folder, "f.mm", head, "$d x y $.\n", theorem)
    write(folder, "bad.mm", head, theorem)
    return [*asked(0, "check f.mm"), *asked(1, "faults bad.mm", "why bad.mm")]


def doubled_values(folder, size):
    """The same, where the values are doubled again and again."""
    twice = "two " * (size.bit_length() - 1)
    head = f"{HEAD}two $a a x x $. ${{ $d x y $. ax $a a x y $. $}}\n"
    theorem = f"th $p a z $= fx {twice}fy {twice}ax $.\n"
    write(folder, "f.mm", head, "$d x y $.\n", theorem)
    write(folder, "bad.mm", head, theorem)
    return asked(1, "check f.mm", "check bad.mm", "faults bad.mm", "why bad.mm")


def number(value):
    """The letters of a number of a compressed proof."""
    digits = [chr(ord("A") + (value - 1) % 20)]
    value = (value - 1) // 20
    while value:
        digits.append(chr(ord("U") + (value - 1) % 5))
        value = (value - 1) // 5
    return "".join(reversed(digits))


def powers(folder, size):
    """Expressions that double with each step, up to so many symbols, which is a power of two."""
    rounds = size.bit_length() - 1
    axioms = "nil $a a a $. cat $a a x y $. put $a |- x $. no $a b x $.\n"
    # The list is nil, cat, put, no: the numbers from 5 on are tags.
    letters = "AZ" + "".join(number(5 + at) + "BZ" for at in range(rounds))
    head = HEAD + axioms
    write(folder, "f.mm", head, "th $p |- ", "a " * size, f"$= ( nil cat put no ) {letters}C $.\n")
    write(folder, "bad.mm", head, "th $p |- ", "a " * (size - 1), "b ",
          f"$= ( nil cat put no ) {letters}C $.\n")
    write(folder, "typed.mm", head, "th $p |- a ",
          f"$= ( nil cat put no ) {letters}DC $.\n")
    more = letters + "".join(number(5 + at) + "BZ" for at in range(rounds, OVER))
    write(folder, "over.mm", head, f"th $p |- a $= ( nil cat put no ) {more}C $.\n")
    write(folder, "wrong.txt", f"( nil cat put no ) {letters}DC\n")
    write(folder, "open.txt", f"( nil cat put no ) {letters}?\n")
    return [*asked(0, "check f.mm", "statement th f.mm", "show --uses th f.mm",
                   "show --essential th f.mm", "show --known th f.mm", "axioms --all f.mm",
                   "minimize th f.mm"),
            *asked(1, "why bad.mm", "show --known th bad.mm", "why typed.mm",
                   "try th wrong.txt f.mm"), *asked(3, "try th open.txt f.mm"),
            *asked(4, "faults over.mm", "why over.mm", "show --known th over.mm")]


def dropped(folder, size):
    """A proof that puts a long expression there and takes it away again, so often."""
    head = f"{HEAD}nil $a a a $. cat $a a x y $.\n${{ e $e a x $. drop $a b $. $}} no $a |- x $.\n"
    letters = "AZ" + "".join(number(5 + at) + "BZ" for at in range(LONG))
    tag = number(5 + LONG)
    write(folder, "bad.mm", head, f"th $p |- a $= ( nil cat no drop ) {letters}\n",
          (f"{tag}{tag}D\n" for _ in range(size)), "C $.\n")
    return asked(1, "faults bad.mm", "why bad.mm")


def copied(folder, size):
    """A proof that leaves so many copies of a long expression on the stack, and asks for a mark that
    isn't there."""
    letters = "AZ" + "".join(number(3 + at) + "BZ" for at in range(LONG))
    write(folder, "bad.mm", f"{HEAD}nil $a a a $. cat $a a x y $.\n",
          f"th $p |- a $= ( nil cat ) {letters}\n",
          (f"{number(3 + LONG)}\n" for _ in range(size)), f"{number(4 + LONG)} $.\n")
    return asked(1, "faults bad.mm", "why bad.mm")


def chain(folder, size):
    """So many theorems, each of which uses the one before."""
    theorems = (f"t{at} $p |- x $= fx t{at - 1} $.\n" for at in range(1, size))
    write(folder, "f.mm", HEAD, "ax $a |- x $. t0 $p |- x $= fx ax $.\n", theorems)
    return asked(0, "check f.mm", "axioms --all f.mm", "users ax f.mm", "users --all ax f.mm",
                 f"axioms t{size - 1} f.mm", f"statement t{size - 1} f.mm",
                 f"show --uses t{size - 1} f.mm", f"show --known t{size - 1} f.mm",
                 f"minimize t{size - 1} f.mm")


def star(folder, size):
    """So many theorems that use one axiom each, every one another."""
    pairs = (f"a{at} $a |- x $. t{at} $p |- x $= fx a{at} $.\n" for at in range(size))
    write(folder, "f.mm", HEAD, pairs)
    return asked(0, "check f.mm", "axioms --all f.mm", "users --all a0 f.mm", "users a0 f.mm",
                 f"axioms t{size - 1} f.mm")


def unproved(folder, size):
    """So many incomplete theorems, and as many that use one each, every one another."""
    pairs = (f"a{at} $p |- x $= ? $. t{at} $p |- x $= fx a{at} $.\n" for at in range(size))
    write(folder, "f.mm", HEAD, pairs)
    return asked(3, "check f.mm", "axioms --all f.mm", "why f.mm", f"axioms t{size - 1} f.mm",
                 f"show --known a{size - 1} f.mm")


def long_proof(folder, size):
    """A proof of so many steps and one more; then one that gives what isn't stated, or leaves all on
    the stack."""
    def theorem(steps):
        return [HEAD, "nil $a a $. cat $a a x y $. no $a b $.\nth $p a $=\n", *steps, "$.\n"]

    half = size // 2
    steps = ["nil\n" * (half + 1), "cat\n" * half]
    write(folder, "f.mm", theorem(steps))
    write(folder, "bad.mm", theorem(["nil\n" * (half + 1), "cat\n" * half, "no cat\n"]))
    write(folder, "left.mm", theorem(["nil\n" * size]))
    write(folder, "proof.txt", steps)
    write(folder, "wrong.txt", [*steps, "cat\n"])
    write(folder, "open.txt", ["nil\n" * size, "?\n"])
    return [*asked(0, "check f.mm", "show --uses th f.mm", "show --essential th f.mm",
                   "show --known th f.mm", "statement th f.mm", "try th proof.txt f.mm",
                   "minimize th f.mm"),
            *asked(1, "why bad.mm", "why left.mm", "faults left.mm", "show --known th bad.mm",
                   "try th wrong.txt f.mm"),
            *asked(3, "try th open.txt f.mm")]


def many_faults(folder, size):
    """So many proofs at fault: each names a label that none has."""
    theorems = (f"t{at} $p |- x $= fx nope{at} $.\n" for at in range(size))
    write(folder, "f.mm", HEAD, theorems)
    return asked(1, "faults f.mm", "why f.mm", "show --known t0 f.mm", f"show --known t{size - 1} f.mm")


def long_names(folder, size):
    """A label and a symbol of so many bytes, and a proof that names a label nearly as long."""
    label, symbol = "l" * size, "s" * size
    head = f"{HEAD}$c {symbol} $. {label} $a |- {symbol} $.\n"
    write(folder, "f.mm", head, f"th $p |- {symbol} $= {label} $.\n")
    write(folder, "bad.mm", head, f"th $p |- a $= {label} $.\n")
    write(folder, "text.mm", head, f"{label}x $a |- a\n$c b $.\n")
    write(folder, "twice.mm", head, f"{label} $a |- a $.\n")
    return [*asked(0, "check f.mm", "statement th f.mm", "show --uses th f.mm",
                   "show --essential th f.mm", "show --known th f.mm", "axioms --all f.mm",
                   "users --all th f.mm", "minimize th f.mm"),
            *asked(1, "why bad.mm", "why text.mm", "why twice.mm", "faults bad.mm")]


def near_names(folder, size):
    """A label of so many bytes, and a proof that names one that differs from it in a byte."""
    head = f"{HEAD}{'l' * size} $a |- a $.\n"
    write(folder, "f.mm", head)
    write(folder, "bad.mm", head, f"th $p |- a $= {'l' * (size - 1)}k $.\n")
    return asked(1, "faults bad.mm", "why bad.mm", "show --known th bad.mm",
                 f"statement {'l' * (size - 1)}k f.mm")


def many_near(folder, size):
    """So many labels of 200 bytes, and ten proofs that name one as long that none has."""
    labels = (f"{at:0200d} $a |- a $.\n" for at in range(size))
    proofs = (f"t{at} $p |- a $= {at}{'x' * 199} $.\n" for at in range(10))
    write(folder, "f.mm", HEAD, labels)
    write(folder, "bad.mm", HEAD, (f"{at:0200d} $a |- a $.\n" for at in range(size)), proofs)
    return asked(1, "faults bad.mm", "why bad.mm", f"statement {'x' * 200} f.mm")


def long_labels(folder, size):
    """So many labels of 98 bytes, and ten proofs that name one as long that none has."""
    labels = (f"{at:098d} $a |- a $.\n" for at in range(size))
    proofs = (f"t{at} $p |- a $= {at}{'x' * 97} $.\n" for at in range(10))
    write(folder, "bad.mm", HEAD, labels, proofs)
    return asked(1, "faults bad.mm", "why bad.mm")


def alike_labels(folder, size):
    """So many labels of 98 bytes that differ in their last bytes alone, and ten proofs that name one
    as long that is far from all of them only there."""
    labels = (f"{'l' * 90}{at:08d} $a |- a $.\n" for at in range(size))
    proofs = (f"t{at} $p |- a $= {'l' * 90}xyz{at}wvut $.\n" for at in range(10))
    write(folder, "bad.mm", HEAD, labels, proofs)
    return asked(1, "faults bad.mm", "why bad.mm")


def in_lines(letters):
    """Letters of a compressed proof, in lines."""
    return (f"{letters[at:at + LINE]}\n" for at in range(0, len(letters), LINE))


def growing_values(folder, size):
    """A proof of so many steps in two chains, of whose values each is one symbol longer than the one
    before."""
    axioms = "nil $a a a $. cat $a a x y $. put $a |- x $.\n"
    drop = "${ e $e |- x $. f $e |- y $. drop $a |- a $. $}\n"
    chain = "A" + "AB" * (size // 4)
    letters = f"{chain}Z{chain}Z{number(5)}C{number(6)}CD"
    write(folder, "f.mm", HEAD, axioms, drop, "th $p |- a $= ( nil cat put drop )\n",
          in_lines(letters), "$.\n")
    return asked(0, "check f.mm", "show --essential th f.mm", "axioms th f.mm", "small th f.mm",
                 "minimize th f.mm", "minimize --list f.mm")


def growing(folder, size):
    """A proof of so many steps in two chains, of whose conclusions each is one symbol longer than
    the one before."""
    axioms = "nil $a a a $. cat $a a x y $. begin $a |- a $.\n"
    step = "${ e $e |- x $. step $a |- a x $. $}\n"
    drop = "${ e1 $e |- x $. e2 $e |- y $. drop $a |- a $. $}\n"
    length = size // 8

    def chain(first):
        """The letters of a chain whose first tag is this one. The list is nil, cat, begin, step."""
        values = "A" * length + "BZ" * (length - 1)
        tags = "".join(number(first + at) for at in reversed(range(length - 2)))
        return values + tags + "AC" + "D" * length

    # The values that both chains end in are pushed before them, as `drop` has them first.
    value = "A" * (length + 1) + "B" * length
    write(folder, "f.mm", HEAD, axioms, step, drop,
          "th $p |- a $= ( nil cat begin step drop )\n",
          in_lines(f"{value}{value}{chain(6)}{chain(6 + length - 1)}E"), "$.\n")
    return asked(0, "check f.mm", "show --essential th f.mm", "axioms th f.mm", "small th f.mm",
                 "minimize th f.mm", "minimize --list f.mm", "lemmas --list f.mm")


def syntax(folder, size):
    """So many axioms of one shape, and a theorem by the first."""
    write(folder, "f.mm", HEAD, (f"x{at} $a a a $.\n" for at in range(size)),
          "ax $a |- x $. th $p |- a $= x0 ax $.\n")
    return asked(0, "check f.mm", "axioms --all f.mm", "minimize th f.mm", "minimize --list f.mm",
                 "lemmas --list f.mm")


def stars(folder, size):
    """So many theorems that use one axiom each, every one another, and all of them a first one."""
    theorems = (f"a{at} $a |- x $. t{at} $p |- x $= fx fx fx a0 fx a{at} mp $.\n"
                for at in range(1, size))
    write(folder, "f.mm", HEAD, "a0 $a |- x $.\n",
          "${ e $e |- x $. f $e |- y $. mp $a |- x $. $}\n", theorems)
    return asked(0, "check f.mm", "axioms --all f.mm", "users --all a0 f.mm", "lemmas --list f.mm")


def many_used(folder, size):
    """A theorem that uses so many axioms, each once."""
    axioms = "".join(f"a{at} $a |- x $.\n" for at in range(size))
    step = "${ e $e |- x $. f $e |- y $. mp $a |- x $. $}\n"
    proof = "fx fx " * (size - 1) + "fx a0" + "".join(f" fx a{at} mp" for at in range(1, size))
    write(folder, "f.mm", HEAD, axioms, step, f"th $p |- x $= {proof} $.\n")
    return asked(0, "check f.mm", "lemmas --all f.mm f.mm")


def mathboxes(folder, size):
    """So many headings of mathboxes, each with a theorem by the axiom."""
    boxes = (f"$(\n#*#*\nMathbox for N{at}\n#*#*\n$)\nt{at} $p |- x $= fx ax $.\n"
             for at in range(size))
    write(folder, "f.mm", HEAD, "ax $a |- x $.\n", boxes)
    return asked(0, "check f.mm", "minimize t0 f.mm", f"minimize t{size - 1} f.mm",
                 "axioms --all f.mm")


def texts(folder, size):
    """Faults of the text and of meaning behind so many statements."""
    many = [HEAD, *(f"$( $[ a{at} $a |- x $)\na{at} $a |- x $. ${{ $}}\n" for at in range(size))]
    for name, end in (("open", "$( no end"), ("close", "$}\n"), ("end", "th $p |- x $= ax\n"),
                      ("twice", "a0 $a |- x $.\n"), ("block", "${\n"), ("symbol", "q $a |- q $.\n"),
                      ("typed", "f $f a x $.\n"), ("same", "$d x x $.\n")):
        write(folder, f"{name}.mm", many, end)
    return asked(1, *(f"why {name}.mm" for name in ("open", "close", "end", "twice", "block",
                                                   "symbol", "typed", "same")))


def mended(folder, size):
    """A proof whose expressions grow, and whose last step gives another one than its theorem's."""
    head = ("$c e a $. $v x y $. fx $f e x $. fy $f e y $.\n"
            "nil $a e a $. cat $a e x y $.\n")
    write(folder, "f.mm", head, "th $p e a $= ( nil cat ) A", "AB" * size, " $.\n")
    return asked(1, "mend th f.mm")


def shared_labels(folder, size):
    """So many labels, and as many proofs at fault, each of which names all of them."""
    labels = (f"l{at} $a |- a $.\n" for at in range(size))
    named = " ".join(f"l{at}" for at in range(size))
    write(folder, "bad.mm", HEAD, labels, (f"t{at} $p |- b $= {named} $.\n" for at in range(size)))
    return asked(1, "faults bad.mm", "why bad.mm", "why --source bad.mm")


def versions(folder, size):
    """Two versions of so many theorems, each by the one before and an axiom of its own, of which the
    first depends on another axiom in each version."""
    step = "${ e $e |- x $. f $e |- y $. mp $a |- x $. $}\n"
    for name in ("old", "new"):
        theorems = (f"a{at} $a |- x $. t{at} $p |- x $= fx fx fx t{at - 1} fx a{at} mp $.\n"
                    for at in range(1, size))
        write(folder, f"{name}.mm", HEAD, step, "old $a |- x $. new $a |- x $.\n",
              f"t0 $p |- x $= fx {name} $.\n", theorems)
    return asked(1, "diff old.mm new.mm")


def variants(folder, size):
    """Assertions of so many symbols, and a pattern of as many, of which none has but the last."""
    write(folder, "f.mm", HEAD, (f"s{at} $a |- {'x y ' * size}$.\n" for at in range(8)))
    pattern = "x y " * (size // 2) + "x x"
    return [Question(["find", "--shape", pattern, "f.mm"], 0),
            Question(["find", pattern, "f.mm"], 0)]


# Why the time or the memory of a question grows faster than its bytes, by the case and the command.
REASONS = {
    ("distinct", "check"): "a `$d` of n variables states n (n - 1) / 2 pairs, and each is judged",
    ("distinct", "show"): "as `check`",
    ("distinct", "statement"): "as `check`; and the reply has a line for each pair",
    ("distinct", "axioms"): "as `check`",
    ("versions", "diff"): "a theorem depends on the axioms of all before it, and all of these are "
                          "compared with those on which it depended",
    ("variants", "find"): "a pattern is compared at each place of an expression",
    ("mended", "mend"): "some sixty changes of each byte are judged from the first step on, as long as "
                        "those of one kind have 200,000 bytes",
}

# What a question may take whatever its bytes are, in seconds, where its bound is one of trials.
SECONDS = {("mended", "mend"): 10}

CASES = [
    ("blocks inside each other, with hypotheses and `$d`", blocks, 20_000),
    ("hypotheses of an axiom", hypotheses, 20_000),
    ("variables, all apart", distinct, 1_000),
    ("variables that lack their `$d`", lacking, 100),
    ("variables in two values that lack their `$d`", wide_values, 100),
    ("symbols in two values that are apart", long_values, 5_000),
    ("symbols in two values that are apart, doubled", doubled_values, 65_536),
    ("symbols of an expression that doubles", powers, 262_144),
    ("long expressions that come and go", dropped, 1_000),
    ("copies of a long expression that stay on the stack", copied, 20_000),
    ("theorems, each by the one before", chain, 50_000),
    ("theorems, each by an axiom of its own", star, 25_000),
    ("theorems, each by an incomplete one", unproved, 25_000),
    ("steps of a proof", long_proof, 500_000),
    ("proofs at fault", many_faults, 50_000),
    ("labels that as many proofs at fault name", shared_labels, 400),
    ("theorems of two versions, each by the one before", versions, 1_500),
    ("symbols of an expression, and half as many of a pattern", variants, 400),
    ("bytes of a label and of a symbol", long_names, 5_000_000),
    ("bytes of two labels that are near", near_names, 5_000),
    ("labels as long as one that is sought", many_near, 100),
    ("labels of 98 bytes, and ten that are sought", long_labels, 20_000),
    ("labels of 98 bytes that differ at their ends", alike_labels, 20_000),
    ("steps in two chains of growing values", growing_values, 10_000),
    ("steps in two chains of growing conclusions", growing, 5_000),
    ("steps of growing values before a fault that is to be mended", mended, 2_000),
    ("axioms of one shape", syntax, 40_000),
    ("theorems, each by an axiom of its own and a first one", stars, 25_000),
    ("axioms that one theorem uses", many_used, 20_000),
    ("headings of mathboxes", mathboxes, 10_000),
    ("statements before a fault of text or meaning", texts, 50_000),
]
