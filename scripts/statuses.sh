#!/bin/sh
# usage: scripts/statuses.sh [--plain] [PROGRAM]
# Drives the proved program, through the launcher, or the one at the absolute path given: each status that it
# can end with, with the bytes of standard output and of standard error, each text that it prints,
# and the commands of the documents. No contract reaches `main` nor says what the texts are, so this
# is what tests them. With --plain the program is that of scripts/plain-rust, whose version says so.
set -eu
top=$(CDPATH='' cd -- "$(dirname -- "$0")/.." && pwd)
is_plain=
if [ "${1-}" = --plain ]; then
    is_plain=yes
    shift
fi
mm=${1-$top/mm}
folder=$(mktemp -d)
trap 'rm -rf "$folder"' EXIT
trap 'exit 1' HUP INT TERM
cd "$folder"
tried=0
failures=0

# The program is built first, so that no message of the launcher is among the bytes that are
# compared.
[ $# != 0 ] || "$mm" prove

# ends STATUS OUT ERR WORDS..: the program, run with these words, ends so. The two texts are written
# by printf's rules.
ends() {
    tried=$((tried + 1))
    wanted=$1
    printf "$2" >wanted.out
    printf "$3" >wanted.err
    shift 3
    status=0
    "$mm" "$@" >got.out 2>got.err || status=$?
    if [ "$status" != "$wanted" ] ||
        ! cmp -s got.out wanted.out || ! cmp -s got.err wanted.err; then
        echo "statuses.sh: mm $*: status $status, wanted $wanted" >&2
        diff wanted.out got.out >&2 || :
        diff wanted.err got.err >&2 || :
        failures=$((failures + 1))
    fi
}

# begins STATUS OUT ERR WORDS..: likewise, of the first lines alone.
begins() {
    tried=$((tried + 1))
    wanted=$1
    out=$2
    err=$3
    shift 3
    status=0
    "$mm" "$@" >got.out 2>got.err || status=$?
    if [ "$status" != "$wanted" ] ||
        [ "$(sed q got.out)" != "$out" ] || [ "$(sed q got.err)" != "$err" ]; then
        echo "statuses.sh: mm $*: status $status, wanted $wanted" >&2
        cat got.out got.err >&2
        failures=$((failures + 1))
    fi
}

# prints_with ERR FILE WORDS..: the program, run with these words, prints what the file has, writes
# this to standard error, and ends with 0.
prints_with() {
    tried=$((tried + 1))
    printf "$1" >wanted.err
    wanted=$2
    shift 2
    status=0
    "$mm" "$@" >got.out 2>got.err || status=$?
    if [ "$status" != 0 ] || ! cmp -s got.err wanted.err || ! cmp -s got.out "$wanted"; then
        echo "statuses.sh: mm $*: status $status, wanted 0" >&2
        diff "$wanted" got.out >&2 || :
        diff wanted.err got.err >&2 || :
        failures=$((failures + 1))
    fi
}

# prints FILE WORDS..: likewise, with nothing on standard error.
prints() {
    prints_with '' "$@"
}

# watched TOLD WORDS..: the program, run with these words, writes this to standard error where that is
# a terminal. It is written by printf's rules. Left out where no `script` makes a terminal.
watched() {
    tried=$((tried + 1))
    printf "$1" >wanted.txt
    shift
    if ! script -qec true /dev/null </dev/null >got.txt 2>&1; then
        return
    fi
    script -qec "'$mm' $* >/dev/null" /dev/null </dev/null >got.txt || :
    if ! cmp -s got.txt wanted.txt; then
        echo "statuses.sh: mm $* on a terminal" >&2
        diff wanted.txt got.txt >&2 || :
        failures=$((failures + 1))
    fi
}

# explains CODE WORDS..: these words ask for the rule with this code.
explains() {
    code=$1
    shift
    "$mm" explain "$code" >wanted.txt
    prints wanted.txt explain "$@"
}

# advises CODE WORDS..: the same, and these words are a refusal, whose fault `mm why` explains.
advises() {
    code=$1
    shift
    "$mm" explain "$code" >wanted.txt
    echo "This is the rule; \`mm why FILES..\` explains the fault." >>wanted.txt
    prints wanted.txt explain "$@"
}

# unknown CODE NEAREST WORDS..: these words ask for this code, which no rule has, and of those that
# there are this one is the nearest.
unknown() {
    code=$1
    nearest=$2
    shift 2
    ends 2 '' "mm: no rule has the code $code; the nearest is $nearest\n\`mm explain\` lists all codes\n" \
        explain "$@"
}

# unlike CODE WORDS..: these words ask for what no rule has as its code, and it hasn't the form of one.
unlike() {
    code=$1
    shift
    ends 2 '' "mm: no rule has the code $code\n\`mm explain\` lists all codes\n" explain "$@"
}

# misused WORDS..: the program refuses these words with status 2, and standard error says which it
# takes.
misused() {
    tried=$((tried + 1))
    status=0
    "$mm" "$@" >got.out 2>got.err || status=$?
    if [ "$status" != 2 ] || [ -s got.out ] ||
        ! grep -q 'Usage: mm' got.err || [ -n "$(tail -c 1 got.err)" ]; then
        echo "statuses.sh: mm $*: status $status, wanted 2" >&2
        cat got.out got.err >&2
        failures=$((failures + 1))
    fi
}

# full STATUS ERR WORDS..: standard output takes nothing, and the program ends so.
full() {
    tried=$((tried + 1))
    wanted=$1
    printf "$2" >wanted.err
    shift 2
    status=0
    "$mm" "$@" >/dev/full 2>got.err || status=$?
    if [ "$status" != "$wanted" ] || ! cmp -s got.err wanted.err; then
        echo "statuses.sh: mm $*, with a full device: status $status, wanted $wanted" >&2
        failures=$((failures + 1))
    fi
}

# mute STATUS OUT WORDS..: standard error takes nothing, and the program ends with this status, and
# with this line on standard output or none, all the same.
mute() {
    tried=$((tried + 1))
    wanted=$1
    out=$2
    shift 2
    status=0
    "$mm" "$@" >got.out 2>/dev/full || status=$?
    if [ "$status" != "$wanted" ] || [ "$(cat got.out)" != "$out" ]; then
        echo "statuses.sh: mm $*, with nobody to tell: status $status, wanted $wanted" >&2
        failures=$((failures + 1))
    fi
}

# literal FILE CONSTANT: the text of a constant of the program's source, as the program has it.
literal() {
    awk -v constant="const $2:" '
    { line = $0 }
    index(line, constant) { is_named = 1 }
    !begun {
        if (!is_named || !sub(/^[^"]*"/, "", line)) { next }
        begun = 1
    }
    line ~ /^";$/ { exit }
    {
        is_cut = sub(/\\$/, "", line)
        if (was_cut) { sub(/^ +/, "", line) }
        gsub(/\\"/, "\"", line)
        gsub(/\\\\/, "\\", line)
        printf is_cut ? "%s" : "%s\n", line
        was_cut = is_cut
    }' "$top/crates/mm_help/src/$1"
}

# narrow FILE COLUMNS: no line of the text has more columns.
narrow() {
    tried=$((tried + 1))
    if ! awk -v most="$2" 'length($0) > most { print; bad = 1 } END { exit bad }' "$1" >&2; then
        echo "statuses.sh: these lines have more than $2 columns" >&2
        failures=$((failures + 1))
    fi
}

# mistaken WORD USE WORDS..: the program doesn't understand this one of the words, and says so and how
# they are used.
mistaken() {
    word=$1
    use=$2
    shift 2
    ends 2 '' "error: unexpected argument '$word' found

Usage: $use

For more information, try '--help'.\n" "$@"
}

# explanations: those of all rules, as the program has them.
explanations() {
    awk '
    sub(/^        text: "/, "") { is_text = 1 }
    /^",$/ { is_text = 0 }
    is_text {
        gsub(/\\"/, "\"")
        gsub(/\\\\/, "\\")
        print
    }' "$top/crates/mm_help/src/rules.rt"
}

cp "$top/examples/"*.mm "$top/examples/folder/"*.mm .
cp "$top/examples/first.mm" -- -first.mm
printf '$c a $.\n$c a $.\n' >twice.mm
printf '$c a $.\np $a a $.\nq $p a $= ? $.\nr $p a $= q $.\n' >open.mm
: >empty.mm
printf '$c a $. one $a a $.\np $p a $= ( one one ) B $.\n' >loose.mm
printf '$c a $. one $a a $.\np $p a $=\n      ( one )\n      A\n$.\n' >tight.mm
printf '$c a $. one $a a $.\np $p a $= nope ? $.\n' >front.mm
printf 'tze tze tpl' >proof.txt
cp first.mm ./-

ends 0 'yes 7 statements 1 proofs\n' '' check first.mm
ends 0 'yes 7 statements 1 proofs\n' '' check -- -first.mm
ends 0 'yes 7 statements 1 proofs\n' '' check --strict first.mm
ends 0 'yes 7 statements 1 proofs\n' '' check first.mm --strict
ends 0 'yes 19 statements 1 proofs\n' '' check --strict demo0c.mm
ends 4 '' 'mm: cannot read --strict\n' check -- --strict first.mm
ends 0 'yes 3 statements 1 proofs\n' '' check loose.mm
ends 1 'no loose.mm 2 p P15 0\n' '' check --strict loose.mm
ends 0 'one\n' '' axioms p loose.mm
prints tight.mm packed --file p loose.mm
ends 0 'yes 3 statements 1 proofs\n' '' check --strict tight.mm
ends 1 'no front.mm 2 p P2 0\n' '' check front.mm
ends 1 'no faults.mm 3 p P14 2\nno faults.mm 5 r P2 0\n' '' faults faults.mm
ends 1 'no faults.mm 3 p P14 2\n' '' check faults.mm
ends 0 'yes 3 statements 1 proofs\n' '' faults loose.mm
ends 1 'no loose.mm 2 p P15 0\n' '' faults --strict loose.mm
ends 3 'incomplete 1\nq\n' '' faults open.mm
ends 4 'load F2\n' '' faults first.mm first.mm

# Explanations of all faults, and of what one theorem alone comes to.
cat >whys.txt <<'END'
faults.mm:3:15: P14: the proof proves something else than is stated, in the proof of p, at step 2
  it states
    b
  but step 1, one at 3:11, gives
    a
  they differ at symbol 1: a where b is asked
faults.mm:5:11: P2: no earlier statement has the label, in the proof of r
  token: nope
  near: one
2 faults
END
told() {
    tried=$((tried + 1))
    wanted=$1
    shift
    status=0
    "$mm" "$@" >got.out 2>got.err || status=$?
    if [ "$status" != "$wanted" ] || [ -s got.err ] || ! cmp -s got.out whys.txt; then
        echo "statuses.sh: mm $*: status $status, wanted $wanted" >&2
        diff got.out whys.txt >&2 || :
        failures=$((failures + 1))
    fi
}
told 1 why faults.mm
ends 1 'faults.mm:3:15: P14: the proof proves something else than is stated, in the proof of p, at step 2\n  | p $p b $= one $.\n  |               ^\n  it states\n    b\n  but step 1, one at 3:11, gives\n    a\n  they differ at symbol 1: a where b is asked\nfaults.mm:5:11: P2: no earlier statement has the label, in the proof of r\n  | r $p a $= nope $.\n  |           ^\n  token: nope\n  near: one\n2 faults\n' '' \
    why --source faults.mm
printf '${\n\t$c\ta $.\r\n' >tabs.mm
ends 1 'tabs.mm:2:2: M1: a $c stands in a block\n  | \t$c\ta $.\n  | \t^\n  token: $c\ntabs.mm:1:1: the block is opened here, and not closed\n  | ${\n  | ^\n1 fault\n' '' \
    why --strict --source tabs.mm
ends 1 'tabs.mm:2:2: M1: a $c stands in a block\n  token: $c\ntabs.mm:1:1: the block is opened here, and not closed\n1 fault\n' '' why tabs.mm
printf '$c a $.\np $p a $= nope $.\nq $p a $= nope $.\nr $p a $= nope $.\n' >three.mm
p2='P2: no earlier statement has the label, in the proof of'
ends 1 "all 3 faulty proofs name nope\nthree.mm:2:11: $p2 p\n  token: nope\n\
three.mm:3:11: $p2 q\n  token: nope\nthree.mm:4:11: $p2 r\n  token: nope\n3 faults\n" '' why three.mm
ends 0 'yes 3 statements 1 proofs\n' '' why loose.mm
ends 3 'incomplete 1\nq\n' '' why open.mm
ends 4 'load F2\n' '' why first.mm first.mm
printf 'tze tze tpl\n' >th.txt
ends 0 'proof\n' '' try th th.txt first.mm
printf 'tze ?\n' >th.txt
ends 3 'text A3 0\n  step 1, tze at 1:1, gives\n    term 0\n  th states\n    term ( 0 + 0 )\n' '' \
    try th th.txt first.mm
printf 'tze tpl\n' >th.txt
ends 1 'text P8 2\nth.txt:1:5: P8: the stack has fewer entries than the step takes, at step 2\n  step: tpl\n  entries it takes: 2, entries there are: 1\n  tt states\n    term t\n  tr states\n    term r\n  step 1, tze at 1:1, gives\n    term 0\n' '' \
    try th th.txt first.mm
printf '$= $( a $) tze tze $( b\n$)\n tpl $.\n$( c $)' >th.txt
ends 0 'proof\n' '' try th th.txt first.mm
ends 1 'text X9 0\n' '' same th th.txt first.mm
printf '$= $( a $) tpl $.\n' >th.txt
ends 1 'text P8 1\nth.txt:1:12: P8: the stack has fewer entries than the step takes, at step 1\n  step: tpl\n  entries it takes: 2, entries there are: 0\n  tt states\n    term t\n  tr states\n    term r\n' '' \
    try th th.txt first.mm
printf 'tze $. tze tpl\n' >th.txt
ends 1 'text X9 0\nth.txt:1:5: X9: a token with $ is no keyword\n  token: $.\n' '' try th th.txt first.mm
ends 1 'text X9 0\n' '' same th th.txt first.mm
printf 'tze tze tpl\n$( open' >th.txt
ends 1 "text X2 0\nth.txt:2:1: X2: a comment isn't closed in its file\n  token: \$(\n" '' \
    try th th.txt first.mm
ends 1 'ask A1 none\n' '' try none th.txt first.mm
ends 0 'th tze tpl\n' '' axioms --all first.mm
ends 3 '? open\nhalf step ?open\nfull one step\n' '' axioms --all rests.mm
ends 0 'th tze refl\n' '' axioms --all top.mm terms.mm rules.mm symbols.mm
ends 3 '? open\nhalf step ?open\nfull step\n' '' axioms --all --essential rests.mm
ends 0 'th refl\n' '' axioms --essential top.mm terms.mm rules.mm symbols.mm --all
ends 4 'load F2\n' '' axioms first.mm --all first.mm
ends 0 'first.mm:7:1\nth $p term ( 0 + 0 )\n' '' statement th first.mm
ends 0 'rests.mm:2:14\nh $e a\nstep $a b\n' '' statement step rests.mm
ends 1 'ask A1 none\n' '' statement none first.mm
ends 1 'no twice.mm 2 - M2 0\n' '' statement p twice.mm
ends 0 'faults.mm:5:1\nr $p a\n' '' statement r faults.mm
ends 0 'first.mm:7:1\nth $p term ( 0 + 0 )\n' '' statement --comment th first.mm
printf '$c a $. $( One. $) one $a a $. two $a a $.\n$( Of. $) ${ $( A.\r\n\tB. $)\r\n h $e a $. in $a a $. $}\n' >told.mm
ends 0 '$( One. $)\ntold.mm:1:20\none $a a\n' '' statement --comment one told.mm
ends 0 'told.mm:1:20\none $a a\n' '' statement one told.mm
ends 0 'told.mm:1:32\ntwo $a a\n' '' statement two told.mm --comment
ends 0 '$( A.\r\n\tB. $)\ntold.mm:4:2\nh $e a\n' '' statement --comment h told.mm
ends 0 'told.mm:4:12\nh $e a\nin $a a\n' '' statement --comment in told.mm
printf '$( Top. $) $[ told.mm $] out $a a $.\n' >tell.mm
ends 0 'tell.mm:1:26\nout $a a\n' '' statement --comment out tell.mm told.mm
ends 0 '$( One. $)\ntold.mm:1:20\none $a a\n' '' statement --comment one tell.mm told.mm
ends 1 'ask A1 none\n' 'mm: the nearest label is one\n' statement --comment none told.mm
ends 1 'no twice.mm 2 - M2 0\n' '' statement --comment p twice.mm
ends 2 '' 'mm: --comment and --all exclude each other
Usage: mm statement [--comment] LABEL FILES..
       mm statement --all FILES..\n' statement --comment --all first.mm
ends 0 'one $a : a\nstep $a : a => b\nopen $p : a\nhalf $p : b\nfull $p : b\n' '' \
    statement --all rests.mm
ends 1 'no twice.mm 2 - M2 0\n' '' statement --all twice.mm
ends 0 'step $a : a => b\nhalf $p : b\nfull $p : b\n' '' find --whole b rests.mm
ends 0 'step $a : a => b\n' '' find b rests.mm --and a --hypotheses
ends 0 'step $a : a => b\n' '' find b --and=a rests.mm --hypotheses
ends 0 '' '' find 'a b' rests.mm
ends 0 'tpl $a : term ( t + r )\nth $p : term ( 0 + 0 )\n' '' find '( $? + $* )' first.mm
ends 0 '' '' find -- -t first.mm
ends 0 'tpl $a : term ( t + r )\n' '' find --shape '( r + t )' first.mm
ends 0 'tpl $a : term ( t + r )\n' '' find --whole '( $? + t )' first.mm --shape
ends 0 '' '' find --shape '( t + t )' first.mm
refused='mm: --shape takes no $*
Usage: mm find PATTERN [--and PATTERN].. [--whole] [--shape] [--hypotheses] FILES..\n'
ends 2 '' "$refused" find --shape '( $* )' first.mm
ends 2 '' "$refused" find t --and '$*' first.mm --shape
ends 3 'step\n? open\n' '' axioms --essential half rests.mm
ends 0 'full\none\n' '' axioms --to one full rests.mm
ends 0 'full\none\n' '' axioms full rests.mm --to=one
ends 1 'ask A4 half\n' '' axioms --to one half rests.mm
ends 3 'ask A3 open\n' '' axioms --to one open rests.mm
ends 1 'ask A1 none\n' '' axioms --to none full rests.mm
for flags in '--all --essential --to tze' '--all --to tze' '--essential --to tze'; do
    ends 2 '' "mm: --to excludes --all and --essential
Usage: mm axioms [--essential | --to AXIOM] LABEL FILES..
       mm axioms --all [--essential] FILES..\n" axioms $flags th first.mm
done
ends 0 'th\n' '' users tze first.mm
ends 0 'th\n' '' users --all tpl first.mm
ends 0 '' '' users th first.mm
ends 1 'ask A2 tt\n' '' users tt first.mm
ends 1 'ask A1 none\n' '' users --all none first.mm
refused='mm: note: the database is refused: no faults.mm 3 p P14 2\n'
ends 0 'q\n' "$refused" users p faults.mm
ends 0 '' "$refused" users --all one faults.mm
ends 1 'ask A1 nothing\n' "$refused" users nothing faults.mm
ends 1 'no twice.mm 2 - M2 0\n' '' users p twice.mm
ends 0 'half\nfull\n' "mm: note: 1 incomplete proof isn't counted\n" users step rests.mm
ends 1 'ask A2 tze\n' '' try tze th.txt first.mm
ends 0 '1 tze term 0\n2 tze term 0\n3 tpl term ( 0 + 0 )\n' '' show --known th first.mm
ends 1 'ask A1 none\n' '' show --known none first.mm
if ! "$top/docs/make-explanations" --check "$mm"; then
    failures=$((failures + 1))
fi
ends 0 'yes 19 statements 1 proofs\n' '' check demo0.mm
ends 0 'yes 19 statements 1 proofs\n' '' check demo0c.mm
ends 0 'yes 6 statements 1 proofs\n' '' check top.mm terms.mm rules.mm symbols.mm
ends 0 'yes 6 statements 1 proofs\n' '' check top.mm symbols.mm rules.mm terms.mm
ends 1 'no top.mm 2 - X7 0\n' '' check top.mm terms.mm symbols.mm
ends 0 'yes 0 statements 0 proofs\n' '' check empty.mm
ends 0 'yes 7 statements 1 proofs\n' '' check -
ends 0 'tze\ntpl\n' '' axioms th first.mm
ends 3 'step\n? open\n' '' axioms half rests.mm
ends 0 'one\nstep\n' '' axioms full rests.mm
ends 3 'ask A3 open\n' '' axioms open rests.mm
ends 1 'ask A2 h\n' '' axioms h rests.mm
ends 0 '1 nil e\n2 nil e\n3 cat e\n4 @3 e\n5 cat e\n' '' show th steps.mm
ends 0 '1 - nil e\n2 - nil e\n3 1,2 cat e\n4 - @3 e\n5 3,3 cat e\n' '' show --uses th steps.mm
ends 0 '5 - cat e\n' '' show --essential th steps.mm
ends 1 'ask A2 tt\n' '' show --essential tt first.mm
ends 0 '1 7:24 A nil e\n2 7:25 A nil e\n3 7:26 BZ cat e\n4 7:28 C @3 e\n5 7:29 B cat e\n' '' \
    show --letters th steps.mm
ends 0 '1 7:24 A nil e\n2 7:25 A nil e\n3 7:26 BZ cat e\n4 7:28 C @3 e\n5 7:29 B cat e\n' '' \
    show --letters th steps.mm --known
ends 0 '1 7:25 - tze term 0\n2 7:29 - tze term 0\n3 7:33 - tpl term ( 0 + 0 )\n' '' \
    show --letters th first.mm
ends 1 'ask A2 tt\n' '' show --letters tt first.mm
ends 0 '1 - nil e\n2 - nil e\n3 1,2 cat e\n4 - @3 e\n5 3,3 cat e\n' '' show --known --uses th steps.mm
ends 0 '5 - cat e\n' '' show --essential th steps.mm --known
sed 's/AABZCB/AABA?/' steps.mm >left.mm
ends 3 '3 - cat e\n4 - nil e\n  step 3, cat at 7:26, gives\n    e\n  step 4, nil at 7:27, gives\n    e\n  th states\n    e\n' '' \
    show --known --essential th left.mm
ends 3 '      nil nil cat nil ?\n' '' normal --known th left.mm
"$mm" normal --known th left.mm >left.txt || :
ends 3 'text A3 0\n  step 3, cat at 1:15, gives\n    e\n  step 4, nil at 1:19, gives\n    e\n  th states\n    e\n' '' \
    try th left.txt left.mm
sed 's/AABZCB/AABB/' steps.mm >short.mm
ends 1 '      nil nil cat ?\n' '' normal th short.mm --known
ends 0 '      tze tze tpl\n' '' normal --known th first.mm
ends 1 'ask A1 zte\n' 'mm: the nearest label is tze\n' normal --known zte first.mm
for flags in '--known --file' '--all --known'; do
    ends 2 '' "mm: --known excludes --file and --all
Usage: mm normal --known LABEL FILES..\n" normal $flags th first.mm
done
for flags in '--essential --uses' '--letters --uses' '--known --letters --essential'; do
    ends 2 '' "mm: --letters, --essential and --uses exclude each other
Usage: mm show [--known] [--letters | --essential | --uses] LABEL FILES..\n" show $flags th first.mm
done
ends 0 '      ( nil cat )\n      AABZCB\n' '' packed th shared.mm
ends 3 'incomplete 2\nu1\nu2\n' '' check unfinished.mm
ends 0 'tze\ntpl\nweq\nwim\na1\na2\nmp\n' '' axioms th1 demo0c.mm
ends 0 '1 tze term 0\n2 tze term 0\n3 tpl term ( 0 + 0 )\n' '' show th first.mm
ends 0 '      tze tze tpl\n' '' normal th first.mm
ends 0 '      ( tze tpl )\n      AAB\n' '' packed th first.mm
sed 's/[$]= .*/$=/' first.mm >saved.mm
printf '      ( tze tpl )\n      AAB\n$.\n' >>saved.mm
prints saved.mm packed --file th first.mm
prints saved.mm packed th first.mm --file
prints saved.mm packed --file th saved.mm
ends 0 '      ( tze tpl )\n      AAB\n' '' small th first.mm
ends 0 '      ( weq mp tze tpl a2 wim a1 )\n      ADEZABZAABZAFZJJKGLIAAHCC\n' '' small th1 demo0c.mm
prints first.mm small --file th first.mm
sed 's/[$]= .*/$=/' first.mm >spaced.mm
cp spaced.mm smaller.mm
printf '     ( tze   tpl )\n  AAB    \n$.\n' >>spaced.mm
printf '     ( tze tpl ) AAB $.\n' >>smaller.mm
prints smaller.mm small --file th spaced.mm
prints smaller.mm small --file th smaller.mm
ends 0 'same\n' '' same th proof.txt saved.mm
ends 1 'text X9 0\n' '' same th first.mm first.mm
ends 1 'ask A1 --file\n' '' packed -- --file first.mm
ends 1 'ask A1 check\n' '' axioms -- check first.mm
ends 1 'ask A1 --help\n' '' axioms -- --help first.mm
ends 1 'ask A1 \n' '' axioms '' first.mm
literal texts.rt HELP >help.txt
for words in --help -h help '--help check' '-h nonsense'; do
    prints help.txt $words
done
narrow help.txt 100
commands='check faults why axioms users statement find show normal packed small minimize lemmas same try mend diff explain help version'
for command in $commands; do
    constant=$(echo "$command" | tr a-z A-Z)
    literal pages.rt "$constant" >page.txt
    narrow page.txt 80
    prints page.txt help "$command"
    prints page.txt "$command" --help
    prints page.txt "$command" -h
    if [ "$(sed 's/^Usage: mm \([a-z]*\).*/\1/;q' page.txt)" != "$command" ] ||
        ! grep -q "^  $command\( \|$\)" help.txt; then
        echo "statuses.sh: $command: its page or the help doesn't begin with its use" >&2
        failures=$((failures + 1))
    fi
done
literal pages.rt CHECK >page.txt
prints page.txt check first.mm --help
prints page.txt check --help --nonsense
literal pages.rt PACKED >page.txt
prints page.txt packed --file -h
ends 2 '' "mm: no command has the name nonsense\nthe commands are $(echo $commands |
    sed 's/ /, /g')\n" help nonsense
ends 2 '' "mm: no command has the name \nthe commands are $(echo $commands |
    sed 's/ /, /g')\n" help ''
kit=$(sed -n 's/.*"mm 0.1.0, proved with \(.*\)\\n";$/\1/p' "$top/crates/mm_help/src/texts.rt")
if [ -n "$is_plain" ]; then
    printf 'mm 0.1.0, plain Rust: the source that is proved with %s, compiled by %s\n' \
        "$kit" 'another compiler; nothing is proved on this machine' >version.txt
else
    printf 'mm 0.1.0, proved with %s\n' "$kit" >version.txt
fi
prints version.txt --version
prints version.txt -V
prints version.txt version
literal code_lines.rt CODES >codes.txt
prints codes.txt explain
explanations >rules.txt
for code in $(sed 's/:.*//' codes.txt); do
    "$mm" explain "$code"
done >told.txt || failures=$((failures + 1))
if [ ! -s told.txt ] || ! cmp -s told.txt rules.txt; then
    echo 'statuses.sh: mm explain: the rules are not those of rules.rt' >&2
    failures=$((failures + 1))
fi
for line in 'Usual cause: ' 'Remedy: '; do
    if [ "$(grep -c "^$line" told.txt)" != "$(wc -l <codes.txt)" ]; then
        echo "statuses.sh: mm explain: not each rule has a line '$line'" >&2
        failures=$((failures + 1))
    fi
done
ends 1 'no twice.mm 2 - M2 0\n' '' check twice.mm
ends 1 'no twice.mm 2 - M2 0\n' '' axioms p twice.mm
ends 1 'ask A1 none\n' '' axioms none first.mm
ends 1 'ask A1 -\n' '' axioms - first.mm
ends 1 'ask A1 -th\n' 'mm: the nearest label is th\n' axioms -- -th first.mm
ends 1 'ask A2 tze\n' '' axioms tze first.mm
ends 1 'no twice.mm 2 - M2 0\n' '' show p twice.mm
ends 1 'ask A1 -\n' '' show - first.mm
ends 1 'ask A2 tt\n' '' show tt first.mm
misused
misused prove first.mm
misused check
misused axioms
misused show
misused axioms th
misused axioms --all
misused axioms --all --all first.mm
misused statement
misused statement th
misused statement --all
misused statement --all --all first.mm
misused statement --comment
misused statement --comment th
misused statement --comment --comment th first.mm
misused find
misused find t
misused find --whole --whole t first.mm
misused find -t first.mm
misused find --shape --shape t first.mm
misused axioms --to tze
misused axioms --to tze th
misused axioms --to tze --to tpl th first.mm
misused axioms --essential th
misused show th
misused axioms -th first.mm
misused show --file th first.mm
misused packed --file --file th first.mm
misused axioms --strict th first.mm
misused check --strict
misused faults
misused why
misused why --source
misused check --source first.mm
misused faults --source first.mm
misused users
misused users th
misused try
misused try th first.mm
misused mend
misused mend th
misused show --known th
misused normal --known th
misused packed --known th first.mm
misused show --uses th
misused show --letters th
misused show --essential --essential th first.mm
misused minimize --all --all first.mm first.mm
misused minimize --list --list first.mm
misused minimize --file --file th first.mm
misused lemmas --list --list first.mm
misused lemmas --list --most 1 --most 1 first.mm
misused check --strict --strict first.mm
misused check -first.mm
misused help check axioms
misused version first.mm
mistaken --quiet 'mm check [--strict] FILES..' check --quiet first.mm
mistaken -q 'mm check [--strict] FILES..' check -q first.mm
mistaken -t 'mm axioms [--essential | --to AXIOM] LABEL FILES..
       mm axioms --all [--essential] FILES..' axioms -th first.mm
mistaken --quiet 'mm packed [--file] LABEL FILES..
       mm packed --all NAME FILES..' packed --file th first.mm --quiet
mistaken --quiet 'mm minimize [--file] LABEL FILES..
       mm minimize --all [--duplicates] NAME FILES..
       mm minimize --list FILES..' minimize --all first.mm first.mm --quiet
mistaken --quiet 'mm explain [CODE]' explain --quiet
mistaken --quiet 'mm help [COMMAND]' help --quiet
for words in 'axioms --to' 'axioms th first.mm --to'; do
    ends 2 '' "error: a value is required for '--to <to>' but none was supplied

For more information, try '--help'.\n" $words
done
for words in 'axioms th' 'axioms --all'; do
    ends 2 '' "error: the following required arguments were not provided:
  <FILES>...

Usage: mm axioms [--essential | --to AXIOM] LABEL FILES..
       mm axioms --all [--essential] FILES..

For more information, try '--help'.\n" $words
done
ends 2 '' "error: the following required arguments were not provided:
  <LABEL>
  <FILES>...

Usage: mm axioms [--essential | --to AXIOM] LABEL FILES..
       mm axioms --all [--essential] FILES..

For more information, try '--help'.\n" axioms
minimize_use='Usage: mm minimize [--file] LABEL FILES..
       mm minimize --all [--duplicates] NAME FILES..
       mm minimize --list FILES..
'
for words in 'minimize th' 'minimize --list' 'minimize --all' 'minimize --all first.mm' \
    'minimize --file' 'minimize --file th'; do
    ends 2 '' "error: the following required arguments were not provided:
  <FILES>...

$minimize_use
For more information, try '--help'.\n" $words
done
ends 2 '' "error: the following required arguments were not provided:
  <LABEL>
  <FILES>...

$minimize_use
For more information, try '--help'.\n" minimize
for flags in '--all --list' '--list --duplicates' '--all --list --duplicates' --duplicates \
    '--file --all' '--file --list' '--file --duplicates'; do
    ends 2 '' "mm: --file and --list stand alone, and --duplicates beside --all\n$minimize_use" \
        minimize $flags first.mm first.mm
done
for name in none.mm ./first.mm th; do
    ends 2 '' "mm: $name is none of the files\n$minimize_use" minimize --all $name first.mm
done
lemmas_use='Usage: mm lemmas --list [--most N] [--least BYTES] FILES..
       mm lemmas [NUMBER..] --all [--most N] [--least BYTES]
           [--prefix P] [--comment TEXT] NAME FILES..
'
for words in '<FILES>...:lemmas' '<FILES>...:lemmas --list --most 1' \
    '<--list|--all>:lemmas first.mm' '<--list|--all>:lemmas --most x first.mm'; do
    ends 2 '' "error: the following required arguments were not provided:
  ${words%%:*}

$lemmas_use
For more information, try '--help'.\n" ${words#*:}
done
for flags in '--list --all' '--list --prefix a' '--list --comment a'; do
    ends 2 '' "mm: --list and --all exclude each other, and --prefix and --comment stand beside --all
$lemmas_use" lemmas $flags first.mm first.mm
done
for prefix in '' 'a$' 'a b' "$(printf '%0101d' 0)"; do
    ends 2 '' "mm: --prefix takes 1 to 100 letters, digits, -, _ and .\n$lemmas_use" \
        lemmas --all --prefix "$prefix" first.mm first.mm
done
for comment in 'a $) b' 'a $( b' 'ä'; do
    ends 2 '' "mm: --comment takes printable ASCII and white space, without \$( and \$)\n$lemmas_use" \
        lemmas --all --comment "$comment" first.mm first.mm
done
for number in 0 4294967296; do
    ends 2 '' "error: invalid value '$number' for '[NUMBER]...': \
it is no number from 1 to 4294967295

For more information, try '--help'.\n" lemmas "$number" --all first.mm first.mm
done
ends 2 '' "mm: none.mm is none of the files\n$lemmas_use" lemmas --all none.mm first.mm
for option in most least; do
    for word in x 0 00 -1 1x 0x1 4294967296 99999999999999999999 + ''; do
        ends 2 '' "error: invalid value '$word' for '--$option <$option>': \
it is no number from 1 to 4294967295

For more information, try '--help'.\n" lemmas --list "--$option=$word" first.mm
    done
    for word in 1 4294967295 +1 01; do
        ends 0 '0 lemmas 0 0\n' '' lemmas --list "--$option" "$word" first.mm
    done
done
begins 2 '' "error: unexpected argument '--strict' found" axioms --strict th first.mm
explains P8 p8
advises P9 no set.mm 655068 x P9 4378
advises P9 'no set.mm 655068 x P9 4378'
advises M2 no 'two words.mm' 2 - M2 0
advises L1 limit f.mm 2 p L1 21
explains F2 load F2
explains A1 ask A1 no
explains P9 text P9 3
explains F3 text F3 0
explains A3 incomplete 2
unknown M222 M12 M222
unknown m222 M12 m222
unknown X0 X1 X0
unknown P99 P9 no set.mm 655068 x P99 4378
unknown P16 P15 P16
unlike 'P8 P9' P8 P9
unlike 'yes 7 statements 1 proofs' yes 7 statements 1 proofs
unlike no no
unlike no no P9
unlike load load
unlike foo foo
unlike P P
unlike 12 12
unlike P1x P1x
unlike '' ''
ends 2 '' 'mm: a word is not UTF-8\n' check "$(printf '\377')"
ends 3 'incomplete 1\nq\n' '' check open.mm
ends 3 '? q\n' '' axioms r open.mm
ends 3 'ask A3 q\n' '' axioms q open.mm
ends 0 '1 q a\n' '' show r open.mm
ends 3 'ask A3 q\n' '' show q open.mm
ends 4 'load F2\n' '' check first.mm first.mm
ends 4 'load F2\n' '' show th first.mm first.mm
ends 4 'load F2\n' '' axioms th first.mm first.mm
ends 4 '' 'mm: cannot read none.mm\n' check none.mm
ends 4 '' 'mm: cannot read none.mm\n' axioms th none.mm
ends 4 '' 'mm: cannot read none.mm\n' show th none.mm
ends 4 '' 'mm: cannot read none.txt\n' same th none.txt none.mm
ends 4 '' 'mm: cannot read .\n' check .

# Words in the wrong order, and a name that stands for standard input elsewhere.
taken() {
    printf 'mm: cannot read %s\\n%smm: %s was taken for the label, and %s for a file: %s\\n' \
        "$2" "${3-}" "$1" "$2" 'the label comes first'
}
input='mm: the name of standard input is /dev/stdin\n'
for command in axioms show normal packed 'packed --file' small minimize 'minimize --file'; do
    ends 4 '' "$(taken first.mm th)" $command first.mm th
done
ends 4 '' "$(taken first.mm th)" axioms first.mm first.mm th none.mm
ends 4 '' "$(taken first.mm th)" same first.mm th proof.txt
ends 4 '' "$(taken first.mm none.txt)" same first.mm none.txt th
ends 4 '' "$(taken .mm th)" axioms .mm th
ends 1 'ask A1 first.mm\n' '' axioms first.mm first.mm
ends 4 '' 'mm: cannot read none\n' axioms first.mmm none
ends 4 '' 'mm: cannot read none\n' axioms mm none
ends 4 '' 'mm: cannot read none\n' check first.mm none
mv ./- dash
ends 4 '' "mm: cannot read -\n$input" check -
ends 4 '' "mm: cannot read -\n$input" check first.mm -
ends 4 '' "mm: cannot read -\n$input" show th -
ends 4 '' "$(taken first.mm - "$input")" show first.mm -
ends 4 '' 'mm: cannot read --\n' check -- --
mv dash ./-
ends 0 'yes 7 statements 1 proofs\n' '' check /dev/stdin <first.mm
ends 4 '' 'mm: cannot read none.mm\n' check first.mm none.mm other.mm
ends 4 '' 'mm: cannot read none.mm\n' check none.mm first.mm
ends 4 '' 'mm: cannot read -x.mm\n' check -- -x.mm
ends 4 '' 'mm: cannot read \n' check '' first.mm

# A file that was handed in and not included is noted after a reply of any kind, in the order of the
# words. Three have lines of their own.
note() {
    printf 'mm: note: %s was not included, so nothing in it was checked\\n' "$@"
}
ends 0 'yes 7 statements 1 proofs\n' "$(note empty.mm)" check first.mm empty.mm
ends 1 'no twice.mm 2 - M2 0\n' "$(note first.mm)" check twice.mm first.mm
ends 3 'incomplete 1\nq\n' "$(note first.mm)" check open.mm first.mm
ends 0 'yes 6 statements 1 proofs\n' "$(note first.mm)" \
    check top.mm terms.mm first.mm rules.mm symbols.mm
ends 1 'no top.mm 2 - X7 0\n' "$(note first.mm)" check top.mm terms.mm first.mm symbols.mm
ends 0 'tze\ntpl\n' "$(note empty.mm)" axioms th first.mm empty.mm
ends 1 'ask A1 h\n' "$(note rests.mm)mm: the nearest label is th\n" axioms h first.mm rests.mm
ends 1 'ask A1 zte\n' 'mm: the nearest label is tze\n' show --known zte first.mm
ends 1 'ask A1 TH\n' 'mm: the nearest label is th\n' show TH first.mm
ends 0 'same\n' "$(note empty.mm)" same th proof.txt saved.mm empty.mm
ends 0 'yes 7 statements 1 proofs\n' "$(note twice.mm empty.mm rests.mm)" \
    check first.mm twice.mm empty.mm rests.mm
ends 0 'yes 7 statements 1 proofs\n' \
    "$(note twice.mm empty.mm rests.mm)mm: note: 1 more file was not included\n" \
    check first.mm twice.mm empty.mm rests.mm open.mm
ends 0 'yes 7 statements 1 proofs\n' \
    "$(note open.mm twice.mm empty.mm)mm: note: 11 more files were not included\n" \
    check first.mm open.mm twice.mm empty.mm rests.mm loose.mm tight.mm front.mm steps.mm \
    demo0.mm demo0c.mm shared.mm unfinished.mm terms.mm rules.mm
ends 4 'load F2\n' '' check first.mm empty.mm empty.mm

# Which changes mend a proof.
lost=$(printf 'mm: note: no change of one byte or of two neighbours makes it a proof\\n')
ends 0 'replaced slip.mm:22:28 B A\n' '' mend th1 slip.mm
ends 0 'proof\n' '' mend th1 demo0c.mm
ends 1 '' "$lost" mend p faults.mm
ends 1 'ask A2 tze\n' '' mend tze first.mm
ends 1 'ask A1 TH\n' 'mm: the nearest label is th\n' mend TH first.mm
ends 3 'ask A3 q\n' '' mend q open.mm
ends 0 'proof\n' "$(note empty.mm)" mend th first.mm empty.mm
ends 4 'load F2\n' '' mend th first.mm first.mm
ends 4 '' 'mm: cannot read none.mm\n' mend th none.mm
sed 's/ABGHH/ABGGG/' slip.mm >lost.mm
ends 1 '' "$lost" mend th1 lost.mm

# What changed between two versions: each a file, or several with `--` between them.
diff_use='mm diff OLD NEW\n       mm diff OLD.. -- NEW..'
sed 's/t + r/r + t/; s/tze [$]a/tzero $a/; s/= tze tze tpl/= tzero/; s/( 0 + 0 )/0/' \
    first.mm >second.mm
none='differ 0 gone 0 added 0 changed 0 reproved 0 renamed 0 moved 0 further 0 less\n'
ends 0 "$none" '' diff first.mm saved.mm
ends 0 "$none" '' diff first.mm ./first.mm
ends 0 "$none" '' diff first.mm -- first.mm
ends 0 "$none" '' diff empty.mm ./empty.mm
sums='differ 0 gone 0 added 2 changed 0 reproved 1 renamed 0 moved'
ends 1 "C tpl\nC th\nR tze tzero\nL th tpl\n$sums 0 further 1 less\n" '' diff first.mm second.mm
ends 1 "C tpl\nC th\nR tzero tze\nF th tpl\n$sums 1 further 0 less\n" '' diff second.mm first.mm
sums='differ 0 gone 3 added 0 changed 0 reproved 0 renamed 0 moved 0 further 0 less\n'
ends 1 "A tze\nA tpl\nA th\n$sums" '' diff empty.mm -- -first.mm
ends 0 "$none" '' diff top.mm terms.mm rules.mm symbols.mm -- top.mm terms.mm rules.mm symbols.mm
ends 0 "$none" "$(note twice.mm)$(note loose.mm tight.mm)" \
    diff first.mm twice.mm -- saved.mm loose.mm tight.mm
ends 1 'no twice.mm 2 - M2 0\n' '' diff twice.mm open.mm
ends 1 'no twice.mm 2 - M2 0\n' '' diff first.mm twice.mm
ends 3 'incomplete 1\nq\n' '' diff open.mm twice.mm
ends 3 'incomplete 1\nq\n' "$(note empty.mm)" diff first.mm -- open.mm empty.mm
ends 4 'load F2\n' '' diff first.mm -- first.mm first.mm
ends 1 'no twice.mm 2 - M2 0\n' '' diff twice.mm -- first.mm first.mm
ends 4 '' 'mm: cannot read none.mm\n' diff none.mm nothing.mm
ends 4 '' 'mm: cannot read none.mm\n' diff twice.mm none.mm
ends 4 '' 'mm: cannot read --help\n' diff first.mm -- --help
ends 4 '' 'mm: cannot read --\n' diff first.mm -- --
for words in first.mm 'first.mm --' '-- first.mm first.mm' 'first.mm first.mm first.mm' \
    'first.mm first.mm --' '-- first.mm --'; do
    ends 2 '' "mm: diff takes two files, or files on both sides of --\nUsage: $diff_use\n" diff $words
done
mistaken --strict "$diff_use" diff --strict first.mm -- first.mm
misused diff
misused diff --
misused diff first.mm -first.mm

# The file that is opened is the one that is named, beside another that could be taken for it: one of
# the same last name in another folder, or one whose name lacks the blanks at both ends. And no word
# of many is dropped.
mkdir d
cp empty.mm d/first.mm
cp empty.mm ' first.mm '
ends 0 'yes 0 statements 0 proofs\n' '' check d/first.mm
ends 4 '' 'mm: cannot read d/twice.mm\n' check d/twice.mm
ends 0 'yes 0 statements 0 proofs\n' '' check ' first.mm '
ends 4 '' 'mm: cannot read  twice.mm \n' check ' twice.mm '
parts=
for part in 1 2 3 4 5 6 7 8 9 10 11; do
    printf '$[ part%s.mm $]\n' "$part" >>parts.mm
    printf '$c c%s $.\n' "$part" >"part$part.mm"
    parts="$parts part$part.mm"
done
ends 0 'yes 11 statements 0 proofs\n' '' check parts.mm $parts
ends 4 '' 'mm: cannot read part12.mm\n' check parts.mm $parts part12.mm

# A whole file with its proofs in a form. NAME is one of the files, by its very name.
prints tight.mm packed --all loose.mm loose.mm
prints tight.mm packed loose.mm loose.mm --all
prints tight.mm packed --all tight.mm tight.mm
prints saved.mm packed --all first.mm first.mm
prints first.mm small --all first.mm first.mm
prints smaller.mm small --all spaced.mm spaced.mm
prints smaller.mm small --all smaller.mm smaller.mm
sed 's/[$]= .*/$=/' first.mm >long.mm
printf '      tze tze tpl\n$.\n' >>long.mm
prints long.mm normal --all first.mm first.mm
prints long.mm normal --all saved.mm saved.mm
printf '$c a $.\np $a a $.\nq $p a $= ? $.\nr $p a $=\n      ( q )\n      A\n$.\n' >half.mm
prints half.mm packed --all open.mm open.mm
printf '$c b $.\n$[ open.mm $]\ns $p a $= r $.\n' >over.mm
printf '$c b $.\n$[ open.mm $]\ns $p a $=\n      ( r )\n      A\n$.\n' >above.mm
prints half.mm packed --all open.mm over.mm open.mm
prints above.mm packed --all over.mm over.mm open.mm
prints empty.mm normal --all empty.mm empty.mm
# A large file with a long proof, in little memory: no more room is asked for than is needed, or its
# refusal is passed over.
large() {
    awk -v step="$1" 'BEGIN {
        print "$c t b $. $v x $. fx $f t x $. ax $a t b $. id $a t x $."
        if (step == " id") {
            printf "th $p t b $= ax"
        } else {
            printf "th $p t b $=\n      ( ax id )\n      A"
        }
        for (i = 1; i <= 100000; i++) {
            if (step != " id" && i % 73 == 0) { printf "\n      " }
            printf "%s", step
        }
        print (step == " id" ? " $." : "\n$.")
        for (i = 0; i < 100000; i++) { print "$( A comment of eighty bytes, as a library has thousands that say nothing here. $)" }
    }'
}
large ' id' >large.mm
large B >small.mm
printf '( ax id ) %s\n' "$(sed -n '/^      A/,/^[$]/p' small.mm | tr -d ' \n$.')" >long.txt
(
    ulimit -v 262144
    prints small.mm packed --all large.mm large.mm
    ends 0 'same\n' '' same th long.txt large.mm
    exit "$failures"
) || failures=$((failures + 1))
for form in normal packed small; do
    ends 2 '' "mm: none.mm is none of the files\nUsage: mm $form --all NAME FILES..\n" \
        $form --all none.mm first.mm
    ends 2 '' "mm: ./first.mm is none of the files\nUsage: mm $form --all NAME FILES..\n" \
        $form --all ./first.mm first.mm
    ends 2 '' "mm: --file and --all exclude each other\nUsage: mm $form --all NAME FILES..\n" \
        $form --all --file first.mm first.mm
    misused $form --all first.mm
    misused $form --all --all first.mm first.mm
    ends 4 'load F2\n' '' $form --all first.mm first.mm first.mm
    ends 4 '' 'mm: cannot read none.mm\n' $form --all none.mm none.mm
    ends 4 '' 'mm: cannot read none.mm\n' $form --all first.mm first.mm none.mm
    ends 1 'no twice.mm 2 - M2 0\n' '' $form --all twice.mm twice.mm
    ends 1 'ask A1 --all\n' '' $form -- --all first.mm
done

# Shorter proofs: of a theorem, in a file, and a list of them. Marks are heeded.
sed 's/^\(kk .*\$=\).*/\1\n    ( wim k add ) ABADDCABEF $./' added.mm >shorter.mm
sed 's/\(th \$p.*\$=\).*/\1\n    ( add ) ABCD $. $}/' shorter.mm >shortest.mm
sed 's/^kk /$( (Proof modification is discouraged.) $)\n&/' added.mm >settled.mm
sed 's/ add [$]p/ $( (New usage is discouraged.) $)&/' added.mm >discouraged.mm
ends 0 '      ( wim k add )\n      ABADDCABEF\n' 'mm: 42 bytes -> 37, 15 steps -> 10\n' minimize kk added.mm
none_shorter='mm: no shorter proof was found\n'
for file in settled.mm discouraged.mm; do
    ends 0 '      ( wim k mp )\n      ABADDZCGDABEGCEF\n' "$none_shorter" minimize kk $file
done
ends 0 '      ( add )\n      ABCD\n' 'mm: 35 bytes -> 25, 9 steps -> 4\n' minimize th added.mm
ends 0 '      ( tze tpl )\n      AAB\n' "$none_shorter" minimize th first.mm
sed 's/\(th \$p.*\$=\).*/\1\n    ( add ) ABCD $. $}/' added.mm >twin.mm
shorter_kk='mm: 42 bytes -> 37, 15 steps -> 10\n'
shorter_th='mm: 35 bytes -> 25, 9 steps -> 4\n'
prints_with "$shorter_kk" shorter.mm minimize --file kk added.mm
prints_with "$shorter_th" twin.mm minimize th added.mm --file
prints_with "$shorter_th" shortest.mm minimize --file th shorter.mm
for file in shortest.mm settled.mm discouraged.mm; do
    prints_with "$none_shorter" $file minimize --file kk $file
done
ends 1 'ask A1 none\n' '' minimize --file none first.mm
ends 1 'ask A1 --file\n' '' minimize -- --file first.mm
ends 1 'ask A2 tze\n' '' minimize --file tze first.mm
ends 3 'ask A3 q\n' '' minimize --file q open.mm
duplicate='duplicate: th 35 25 9 4 add\n'
ends 0 "kk 42 37 15 10 add\n${duplicate}2 proofs 77 62 24 14\n" '' minimize --list added.mm
ends 0 "${duplicate}1 proofs 35 25 9 4\n" '' minimize --list settled.mm
ends 0 '0 proofs 0 0 0 0\n' '' minimize --list discouraged.mm
prints shorter.mm minimize --all added.mm added.mm
watched '\rmm: 3 of 3 theorems, 15 bytes saved\r\n' minimize --list added.mm
mend='mm: mm mend p faults.mm looks for a small change that mends it\r\n'
watched "mm: mm why faults.mm explains it\r\n$mend" check faults.mm
watched "mm: mm why --strict faults.mm explains it\r\n$mend" check --strict faults.mm
watched 'mm: mm why twice.mm explains it\r\n' check twice.mm
watched '' faults faults.mm
watched '' why faults.mm
watched 'mm: mm mend th1 slip.mm looks for a small change that mends it\r\n' why slip.mm
watched 'mm: tt is a hypothesis, stated by $f\r\n' users tt first.mm
watched 'mm: tze is stated by $a, so it has no proof\r\n' show tze first.mm
watched 'mm: cannot read nothing.mm\r\nmm: there is no such file\r\n' check nothing.mm
watched 'mm: cannot read .\r\nmm: it is a folder\r\n' check .
watched '\rmm: 3 of 3 theorems, 1 bytes saved\r\n' minimize --all added.mm added.mm
watched 'mm: 42 bytes -> 37, 15 steps -> 10\r\n' minimize kk added.mm
watched 'mm: 42 bytes -> 37, 15 steps -> 10\r\n' minimize --file kk added.mm
watched '' small --all added.mm added.mm
prints shortest.mm minimize added.mm --all added.mm --duplicates
prints shorter.mm minimize --all shorter.mm shorter.mm
prints shortest.mm minimize --all --duplicates shortest.mm shortest.mm
prints settled.mm minimize --all settled.mm settled.mm
prints discouraged.mm minimize --all discouraged.mm discouraged.mm
ends 0 '0 proofs 0 0 0 0\n' '' minimize --list shortest.mm
ends 3 '0 proofs 0 0 0 0\n' '' minimize --list open.mm
ends 0 '0 proofs 0 0 0 0\n' '' minimize --list empty.mm
prints open.mm minimize --all open.mm open.mm
ends 1 'ask A1 none\n' '' minimize none first.mm
ends 1 'ask A1 --all\n' '' minimize -- --all first.mm
ends 1 'ask A2 tze\n' '' minimize tze first.mm
ends 3 'ask A3 q\n' '' minimize q open.mm
# The conclusions of the proof have 4,194,382 symbols: those of four chains, each of nineteen doublings.
two='two two two two two two two two two two two two two two two two two two two'
chains="fx $two fx $two fx $two fx $two"
cat >long.mm <<END
\$c a ok |- \$. \$v x y \$. fx \$f a x \$. fy \$f a y \$. two \$a a x x \$.
\${ l.1 \$e a x \$. l.2 \$e a y \$. long \$a |- ok \$. \$}
th \$p |- ok \$= $chains long \$.
END
left='mm: note: 1 theorem is left as it is: its proof is too long to search\n'
ends 0 '      ( two fx long )\n      BAAAAAAAAAAAAAAAAAAAZDDDC\n' "$left" minimize th long.mm
ends 0 '0 proofs 0 0 0 0\n' "$left" minimize --list long.mm
prints_with "$left" long.mm minimize --file th long.mm
{ cat long.mm; echo "th2 \$p |- ok \$= $chains long \$."; } >longer.mm
ends 0 '0 proofs 0 0 0 0\n' \
    'mm: note: 2 theorems are left as they are: their proofs are too long to search\n' \
    minimize --list longer.mm
for words in 'p' '--file p' --list '--all twice.mm'; do
    ends 1 'no twice.mm 2 - M2 0\n' '' minimize $words twice.mm
done
for words in 'th' '--file th' --list '--all first.mm'; do
    ends 4 'load F2\n' '' minimize $words first.mm first.mm
    ends 4 '' 'mm: cannot read none.mm\n' minimize $words first.mm none.mm
done

# Lemmas: what is told of them, how many at most, and how many bytes each saves at least.
lemma='27 5 5 disjunction-is-commutative 1 disjunction-is-weaker : |- P => |- ( Q or P )\n'
sed '$a open $p |- a $= ? $.' lacking.mm >unproved.mm
for options in '' '--most 1' '--least 27' '--most 1 --least 27' '--most 4294967295'; do
    ends 0 "${lemma}1 lemmas 27 5\n" '' lemmas --list $options lacking.mm
    ends 3 "${lemma}1 lemmas 27 5\n" '' lemmas $options unproved.mm --list
done
for least in 28 100; do
    ends 0 '0 lemmas 0 0\n' '' lemmas --list --least $least lacking.mm
done
sed 's/^one /$( (Proof modification is discouraged.) $)\n&/' lacking.mm >settled.mm
sed 's/^  disj/  $( (New usage is discouraged.) $)\n&/' lacking.mm >discouraged.mm
for file in settled.mm discouraged.mm empty.mm; do
    ends 0 '0 lemmas 0 0\n' '' lemmas --list $file
done
{ cat lacking.mm; printf '${ h $e |- Q $. late $p |- ( P or Q ) $=\n'
    printf '  wq wp wq wp h disjunction-is-weaker disjunction-is-commutative $. $}\n'; } >late.mm
ends 0 '72 6 6 disjunction-is-commutative 1 disjunction-is-weaker is late : |- P => |- ( Q or P )\n1 lemmas 72 6\n' \
    '' lemmas --list late.mm
# The line is written where a lemma is found, and where the search ends.
found='\rmm: 1 of 1 theorems, 27 bytes saved\rmm: 1 of 1 theorems, 27 bytes saved\r\n'
watched "$found" lemmas --list lacking.mm
ends 1 'no twice.mm 2 - M2 0\n' '' lemmas --list twice.mm
ends 4 'load F2\n' '' lemmas --list first.mm first.mm
ends 4 '' 'mm: cannot read none.mm\n' lemmas --list first.mm none.mm

# A file with lemmas. The lemma stands right before the first theorem that uses it, or before the
# first mathbox where several do.
# with_lemma FILE LABEL COMMENT PATTERN: the file with it before the line of this pattern.
with_lemma() {
    sed "/$4/,\$d" "$1"
    cat <<END
  \${
    $2.1 \$e |- P \$.
    \$( $3 \$)
    $2 \$p |- ( Q or P ) \$=
      ( disjunction-is-weaker disjunction-is-commutative ) ABABCDE \$.
  \$}

END
    sed -n "/$4/,\$p" "$1" | sed -E "
        s/\( wa given disj[^)]*\) AAAABCD/( wa given $2 ) AABC/
        /^  \( wa wor given disj/ {
            N
            s/disj[^)]*\)\n  /$2 ) /
            s/ZAFCDE/CD/
        }"
}
made='Lemma by mm: disjunction-is-commutative with disjunction-is-weaker as
        hypothesis 1.'
none='mm: note: no lemma makes the file smaller\n'
with_lemma lacking.mm lem1 "$made" '^one ' >with.mm
for options in '' 1 '9 1 1' '1 --most 1 --least 27'; do
    prints with.mm lemmas $options --all lacking.mm lacking.mm
done
prints_with "$none" with.mm lemmas --all with.mm with.mm
prints_with "$none" lacking.mm lemmas 2 --all lacking.mm lacking.mm
prints_with "$none" lacking.mm lemmas 1 --all --least 28 lacking.mm lacking.mm
watched "$found" lemmas 1 --all lacking.mm lacking.mm
with_lemma lacking.mm own1 'Weaken, and commute.' '^one ' >with.mm
prints with.mm lemmas --all lacking.mm lacking.mm --prefix own --comment 'Weaken, and commute.'
ends 0 'yes 24 statements 6 proofs\n' '' check with.mm
with_lemma unproved.mm lem1 "$made" '^one ' >with.mm
ends 3 "$(cat with.mm)\n" '' lemmas --all unproved.mm unproved.mm
with_lemma settled.mm x1 x '^two ' >with.mm
prints with.mm lemmas --all settled.mm settled.mm --prefix x --comment x
for file in settled.mm discouraged.mm late.mm empty.mm; do
    prints_with "$none" $file lemmas --all $file $file
done
sed 's/^one /$( #*#*# Mathbox for A #*#*# $)\n&/' lacking.mm >boxes.mm
with_lemma boxes.mm lem1 "$made" '^one ' >with.mm
prints with.mm lemmas --all boxes.mm boxes.mm
sed -i 's/^four /$( #*#*# Mathbox for B #*#*# $)\n&/' boxes.mm
with_lemma boxes.mm lem1 "$made" 'for A' >with.mm
prints with.mm lemmas --all boxes.mm boxes.mm
not_included='mm: note: first.mm was not included, so nothing in it was checked\n'
prints_with "$not_included$none" lacking.mm lemmas 2 --all lacking.mm lacking.mm first.mm
ends 1 'no twice.mm 2 - M2 0\n' '' lemmas --all twice.mm twice.mm
ends 4 'load F2\n' '' lemmas --all first.mm first.mm first.mm
ends 4 '' 'mm: cannot read none.mm\n' lemmas --all first.mm first.mm none.mm

# Zeros, one more than the files may hold, of which the file system need not keep any.
truncate -s 1073741825 long.mm
ends 4 'load F3\n' '' check long.mm none.mm
rm long.mm

# A reader that has gone: the reply of 20,000 incomplete proofs passes what a pipe holds.
{
    printf '$c a $.\n'
    awk 'BEGIN { for (i = 0; i < 20000; i++) { printf "p%d $p a $= ? $.\n", i } }'
} >many.mm
{
    status=0
    "$mm" check many.mm 2>got.err || status=$?
    echo "$status" >got.status
} | head -n 1 >got.out
if [ "$(cat got.out)" != 'incomplete 20000' ] || [ "$(cat got.status)" != 4 ] ||
    [ "$(cat got.err)" != 'mm: cannot write' ]; then
    echo "statuses.sh: mm check many.mm | head: status $(cat got.status), wanted 4" >&2
    failures=$((failures + 1))
fi

if [ -w /dev/full ]; then
    full 4 'mm: cannot write\n' check first.mm
    full 4 'mm: cannot write\n' help
    full 4 'mm: cannot write\n' help check
    full 4 'mm: cannot write\n' version
    full 4 'mm: cannot write\n' packed --all first.mm first.mm
    full 4 'mm: cannot write\n' minimize --list first.mm
    full 4 'mm: cannot write\n' lemmas --list first.mm
    mute 2 '' check
    mute 2 '' help nonsense
    mute 4 '' check none.mm
    mute 4 '' axioms first.mm th
    mute 0 'yes 7 statements 1 proofs' check first.mm empty.mm
    full 4 'mm: cannot write\n' check first.mm empty.mm
fi

# typed DOCUMENT FOLDER: each command of the document, in its order, typed in the folder: each line
# of a block without a tag, or each loop. One that wants the network, cargo, the kit, metamath-exe or
# its databases, is of the repository, or puts the program elsewhere, is left out. What stands behind `# prints: ` is
# compared. Standard error is empty but for a search that found nothing.
typed() {
    rm -f command??
    awk '
    /^```/ { is_block = !is_block; is_command = is_block && $0 == "```"; next }
    !is_command { next }
    /^(apt-get|cargo|cd|git|ln|metamath|rt|\.\/test|\.\/\.ci\/run|(\.\/)?mm prove|scripts\/[a-z-]*)( |$)/ { next }
    /metamath\/databases/ { next }
    !is_loop { count++ }
    { print >(sprintf("command%02d", count)) }
    /^for / { is_loop = 1 }
    /^done/ { is_loop = 0 }' "$top/$1"
    for command in command??; do
        tried=$((tried + 1))
        if [ ! -e "$command" ]; then
            echo "statuses.sh: $1 has no command" >&2
            failures=$((failures + 1))
            break
        fi
        printed=$(sed -n 's/.*# prints: //p' "$command")
        case $(cat "$command") in
        *'# prints: no '* | *'status 1') wanted=1 ;;
        *) wanted=0 ;;
        esac
        status=0
        (cd "$2" && sh "../$command") >got.out 2>got.err </dev/null || status=$?
        if [ "$status" != "$wanted" ] || grep -qvx \
            -e 'mm: no shorter proof was found' \
            -e 'mm: note: no lemma makes the file smaller' got.err ||
            { [ -n "$printed" ] && [ "$(cat got.out)" != "$printed" ]; }; then
            echo "statuses.sh: $1: $(cat "$command"): status $status, wanted $wanted" >&2
            cat got.out got.err >&2
            failures=$((failures + 1))
        fi
    done
}

# README.md is typed at the top of the repository: in a folder that has the program and copies of
# the examples.
mkdir top
ln -s "$mm" top/mm
cp -r "$top/examples" top/examples
PATH=$folder/top:$PATH
export PATH
typed README.md top

# What it shows of `mm why` are lines that it prints, in their order, of the file that it had made.
awk '/^```/ { is_shown = !is_shown && $0 == "```text"; next } is_shown' "$top/README.md" >shown.txt
(cd top && mm why bad.mm) >got.out || true
if [ ! -s shown.txt ] || diff shown.txt got.out | grep '^<' >&2; then
    echo "statuses.sh: README.md: mm why bad.mm prints something else" >&2
    failures=$((failures + 1))
fi

# docs/USING.md is typed beside databases of these names.
mkdir using
cp "$top/examples/demo0c.mm" using/set.mm
cp "$top/examples/demo0.mm" using/old.mm
cp "$top/examples/demo0c.mm" using/new.mm
cp "$top/examples/faults.mm" using/faults.mm
typed docs/USING.md using

# block TAG: the lines of the blocks of docs/USING.md with this tag.
block() {
    awk -v tag="$1" '
    /^```/ { is_wanted = !is_wanted && $0 == "```" tag; next }
    is_wanted' "$top/docs/USING.md"
}

# shows WHAT WANTED GOT: what a tool that the page speaks of shows of examples/faults.mm.
shows() {
    tried=$((tried + 1))
    if [ "$2" != "$3" ]; then
        echo "statuses.sh: docs/USING.md: $1: $3, wanted $2" >&2
        failures=$((failures + 1))
    fi
}

# A job fails on a refusal, and on an unfinished proof where that may not be.
job() {
    grep '^mm why set\.mm ||' "$top/docs/USING.md" | sed -n "$1p" | sed "s/set\.mm/$2/g" >using/job
    (cd using && status=0 && out=$(sh job) || status=$?; echo $status $out)
}
cp "$top/examples/unfinished.mm" using
shows 'the job' "1 $(echo $(cd using && "$mm" why faults.mm))" "$(job 1 faults.mm)"
shows 'the job and an unfinished proof' '1 incomplete 2 u1 u2' "$(job 1 unfinished.mm)"
shows 'the job that lets unfinished proofs pass' '0 incomplete 2 u1 u2' "$(job 2 unfinished.mm)"
shows 'that job and a refusal' "1 $(echo $(cd using && "$mm" why faults.mm))" "$(job 2 faults.mm)"
if command -v make >/dev/null 2>&1; then
    block make >using/makefile
    (cd using && make set.checked set.packed) >got.out 2>&1 || cat got.out >&2
    (cd using && make -k faults.checked faults.packed) >got.out 2>/dev/null || :
    shows 'the faults that make tells' 2 "$(grep -c '^2 faults$' got.out)"
    shows make 'set.checked set.packed' "$(cd using && echo *.checked *.packed |
        sed 's/old.packed //; s/new.packed //')"
    shows 'the packed file' "$("$mm" packed --all demo0c.mm demo0c.mm)" "$(cat using/set.packed)"
fi
# fault NUMBER: what stands behind the place in the first line of an explanation of faults.mm.
fault() {
    (cd using && "$mm" why faults.mm || :) | sed -n 's/^faults.mm:[0-9]*:[0-9]*: //p' | sed -n "$1p"
}
if command -v vim >/dev/null 2>&1; then
    mkdir -p using/home/.vim/ftdetect using/home/.vim/ftplugin
    block vim | awk 'sub(/^" ~\//, "") { file = "using/home/" $0; next } { print >file }'
    echo 'filetype plugin on' >using/vimrc
    (cd using && HOME=$folder/using/home vim -es -N -u vimrc faults.mm -c 'silent make!' \
        -c 'redir! > list' -c 'silent clist' -c 'redir END' -c 'qa!') </dev/null >got.out 2>&1 ||
        cat got.out >&2
    shows vim "1 faults.mm:3 col 15: $(fault 1) 2 faults.mm:5 col 11: $(fault 2)" \
        "$(echo $(grep '^ *[0-9]' using/list))"
fi
if command -v emacs >/dev/null 2>&1; then
    cat >using/list.el <<'END'
(with-current-buffer (compile "mm why faults.mm")
  (while (get-buffer-process (current-buffer)) (accept-process-output nil 0.1))
  (compilation--ensure-parse (point-max))
  (goto-char (point-min))
  (dotimes (_ compilation-num-errors-found)
    (compilation-next-error 1)
    (let ((place (compilation--message->loc (get-text-property (point) 'compilation-message))))
      (princ (format "%s " (compilation--loc->line place))))))
END
    shows emacs '3 5' "$(cd using && echo $(emacs -Q --batch -l compile -l ./list.el 2>../got.err))"
fi

# The commands in the text of the documents, which end in several ways: the program understands
# them, and reads the files that they name.
(cd "$top" && grep -oh -e '`\./mm [^`]*`' -e '`(cd [^`]*`' \
    README.md docs/LANGUAGE.md docs/FORMATS.md) | tr -d '`' | grep -v '^\./mm prove' | sort -u \
    >commands.txt
if [ ! -s commands.txt ]; then
    echo 'statuses.sh: the documents have no command' >&2
    failures=$((failures + 1))
fi
while IFS= read -r command; do
    tried=$((tried + 1))
    status=0
    (cd top && sh -c "$command") >got.out 2>got.err </dev/null || status=$?
    if [ "$status" = 2 ] || [ "$status" -gt 4 ] ||
        { grep -q 'cannot read' got.err && ! grep -q 'was taken for the label' got.err; }; then
        echo "statuses.sh: the documents: $command: status $status" >&2
        cat got.out got.err >&2
        failures=$((failures + 1))
    fi
done <commands.txt

echo "statuses.sh: $((tried > failures ? tried - failures : 0)) passed, $failures failed"
[ "$failures" = 0 ]
