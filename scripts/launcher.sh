#!/bin/sh
# Tests the launcher `mm`: which program it runs, when it builds one, and what it says of it. It
# runs in a copy of the sources with a cargo and an rt of its own, which build at once programs that
# print which they are.
set -eu
top=$(CDPATH='' cd -- "$(dirname -- "$0")/.." && pwd)
folder=$(mktemp -d)
trap 'rm -rf "$folder"' EXIT
trap 'exit 1' HUP INT TERM
passed=0
failed=0

copy=$folder/top
mkdir -p "$copy/crates" "$folder/tools" "$folder/cargo" "$folder/rt"
cp -r "$top/mm" "$top/scripts" "$top/crates.txt" "$copy"
for crate in "$top"/crates/*/; do
    mkdir -p "$copy/crates/$(basename "$crate")"
    cp -r "$crate/src" "$copy/crates/$(basename "$crate")"
done
mkdir "$copy/crates/mm_base/proofs"
: >"$copy/crates/mm_base/proofs/Proof.antt"
for tool in awk basename cat chmod cp date dirname env find getconf grep head mkdir mktemp mv \
    readlink rm sed sh sleep tail touch tr wc; do
    ln -s "$(command -v "$tool")" "$folder/tools/$tool"
done
ln -s "$(python3 -c 'import sys; print(sys.executable)')" "$folder/tools/python3"

# Each of the two fails where a file `refuse` is there, and takes long where `slow` is.
cat >"$folder/cargo/cargo" <<'END'
#!/bin/sh
echo cargo >>"$CALLS/calls"
[ ! -e "$CALLS/refuse" ] || { echo 'error: no such thing'; exit 101; }
[ ! -e "$CALLS/slow" ] || exec sleep 20
while [ "$1" != --root ]; do shift; done
mkdir -p "$2/bin"
printf '#!/bin/sh\necho plain "$@"\n' >"$2/bin/mm"
chmod +x "$2/bin/mm"
END
cat >"$folder/rt/rt" <<'END'
#!/bin/sh
case $1 in
version)
    echo "rattle-kit-0 logic $(cat "$CALLS/logic")"
    exit
    ;;
esac
echo "rt $1" >>"$CALLS/calls"
echo 'so far: 3 of 7 functions checked; the verdict comes last'
[ ! -e "$CALLS/refuse" ] || { echo 'not proved'; exit 1; }
[ ! -e "$CALLS/slow" ] || exec sleep 20
mkdir -p out/rlib
[ "$1" = run ] || exit 0
printf '#!/bin/sh\necho proved "$@"\n' >out/mm_tool
chmod +x out/mm_tool
END
chmod +x "$folder/cargo/cargo" "$folder/rt/rt"
"$top/scripts/logic" >"$folder/logic"
CALLS=$folder
export CALLS
both=$folder/cargo:$folder/rt

# holds WHAT COMMAND..: the command ends with 0.
holds() {
    what=$1
    shift
    if "$@"; then
        passed=$((passed + 1))
    else
        failed=$((failed + 1))
        echo "launcher.sh: $what; standard output and standard error:" >&2
        cat "$folder/out" "$folder/err" >&2
    fi
}

# runs STATUS OUT CALLS TOOLS WORDS..: the launcher, with these tools on PATH, ends so, with this
# reply, after so many calls of cargo and rt.
runs() {
    wanted="$1 $3 $2"
    tools=$4
    shift 4
    : >"$folder/calls"
    status=0
    PATH=$tools:$folder/tools "$copy/mm" "$@" >"$folder/out" 2>"$folder/err" || status=$?
    got="$status $(wc -l <"$folder/calls" | tr -d ' ') $(cat "$folder/out")"
    holds "mm $*: $got, wanted $wanted" [ "$got" = "$wanted" ]
}

# says TEXT: standard error has this.
says() {
    holds "standard error lacks: $1" grep -q -- "$1" "$folder/err"
}

# is_mute: standard error is empty.
is_mute() {
    holds 'standard error is not empty' [ ! -s "$folder/err" ]
}

# change FILE: the file of the copy is younger than what was built.
change() {
    sleep 0.05 2>/dev/null || sleep 1
    touch "$copy/crates/$1"
}

# stops TOOLS WORDS..: the launcher is stopped while it builds.
stops() {
    tools=$1
    shift
    : >"$folder/calls"
    : >"$folder/slow"
    PATH=$tools:$folder/tools "$copy/mm" "$@" >"$folder/out" 2>"$folder/err" &
    child=$!
    while [ ! -s "$folder/calls" ]; do
        sleep 0.05 2>/dev/null || sleep 1
    done
    kill "$child"
    status=0
    wait "$child" || status=$?
    rm "$folder/slow"
    holds "mm $*, stopped: status $status, wanted 4" [ "$status" = 4 ]
    says 'not built: interrupted'
}

# Neither is there; then rt alone, and cargo alone.
runs 4 '' 0 "$folder/none" check f.mm
says 'install Rust'
runs 4 '' 0 "$folder/none" version
runs 4 '' 0 "$folder/cargo" prove
says 'rt, which proves and builds it, is not on PATH'
stops "$folder/rt" check f.mm
. "$copy/scripts/programs.sh"
top=$copy
count=$(crates | wc -l | tr -d ' ')
runs 0 'proved check f.mm' "$count" "$folder/rt" check f.mm
says 'so it is proved and built now'
says "crate $count of $count, mm_tool: "
runs 0 'proved check f.mm' 0 "$folder/rt" check f.mm
is_mute
change mm_base/proofs/Proof.antt
runs 0 'proved version' 0 "$folder/rt" version
is_mute
runs 0 'proved check f.mm' "$count" "$folder/rt" check f.mm
says 'is out of date'
rm -r "$copy/crates/mm_tool/out"

stops "$folder/cargo" check f.mm
holds 'an interrupted build leaves nothing' [ -z "$(ls "$copy/.plain")" ]
runs 0 'plain check f.mm' 1 "$folder/cargo" check f.mm
says 'not built yet, so cargo builds it now'
says "isn't proved: .*mm prove"
holds 'one line is told' [ "$(wc -l <"$folder/err")" -eq 1 ]
for words in 'check f.mm' version 'help check'; do
    runs 0 "plain $words" 0 "$folder/cargo" $words
    is_mute
done
change mm_base/proofs/Proof.antt
runs 0 'plain check f.mm' 0 "$folder/cargo" check f.mm
is_mute
change mm_base/src/lib.rt
runs 0 'plain check --help' 0 "$folder/cargo" check --help
is_mute
runs 0 'plain check -- --help' 1 "$folder/cargo" check -- --help
says 'is out of date'
runs 0 'plain check f.mm' 0 "$folder/none" check f.mm
is_mute
change mm_base/src/lib.rt
: >"$folder/refuse"
runs 4 '' 1 "$folder/cargo" check f.mm
says 'error: no such thing'
says 'cargo failed'
runs 4 '' 1 "$both" prove
says 'mm_base is not proved'
rm "$folder/refuse"

# Of two builds side by side each is whole.
PATH=$folder/cargo:$folder/tools "$copy/mm" one >"$folder/one" 2>/dev/null &
PATH=$folder/cargo:$folder/tools "$copy/mm" two >"$folder/out" 2>"$folder/err"
wait "$!"
holds 'two builds' [ "$(cat "$folder/one" "$folder/out")" = 'plain one
plain two' ]
holds 'two builds leave one program' [ "$(ls "$copy/.plain")" = mm ]

# The proved program takes the place of the plain one, while it is up to date.
stops "$both" prove
runs 0 'plain check f.mm' 0 "$both" check f.mm
runs 0 '' "$count" "$both" prove
says 'the program is proved and built'
for words in 'check f.mm' version; do
    runs 0 "proved $words" 0 "$both" $words
    is_mute
done
runs 0 '' 0 "$both" prove
says 'up to date'
change mm_base/proofs/Proof.antt
runs 0 'plain version' 0 "$both" version
runs 0 'plain check f.mm' 0 "$both" check f.mm
is_mute
echo 0123456789abcdef >"$folder/logic"
runs 0 '' "$count" "$both" prove
says 'the kit here has 0123456789abcdef'
runs 2 '' 0 "$both" prove f.mm
says 'Usage: mm prove'
runs 0 "$(PATH=$both:$folder/tools "$copy/mm" prove --help)" 0 "$both" prove -h
holds 'the page of prove begins with its use' grep -q '^Usage: mm prove$' "$folder/out"
ln -s "$copy/mm" "$folder/linked"
holds 'the launcher works by a link' \
    [ "$(PATH=$both:$folder/tools "$folder/linked" check f.mm)" = 'proved check f.mm' ]

echo "launcher.sh: $passed passed, $failed failed"
[ "$failed" = 0 ]
