# Functions of `mm` and of scripts that want its program: the two programs that there can be,
# whether they are up to date, and how they are built. Who reads this has set `top`, the repository.
#
# - The proved one is made by the kit, `rt`, which proves every crate first.
# - The plain one is made by cargo from the same sources without their contracts. It isn't proved.

proved=$top/crates/mm_tool/out/mm
plain=$top/.plain/mm
launcher=${launcher-$top/mm}
proof_takes='about an hour on four cores, and up to 6 GB of memory'

# The crates of the program, lowest first: mm_tool and what it stands on.
crates() {
    awk '
    /^#/ || !/:/ { next }
    {
        name = $1
        sub(/:.*/, "", name)
        names[++count] = name
        stands_on[name] = $0
    }
    END {
        needed["mm_tool"] = 1
        for (i = count; i > 0; i--) {
            if (!needed[names[i]]) { continue }
            parts = split(stands_on[names[i]], words, /[: ]+/)
            for (k = 2; k <= parts; k++) { needed[words[k]] = 1 }
        }
        for (i = 1; i <= count; i++) { if (needed[names[i]]) { print names[i] } }
    }' "$top/crates.txt"
}

# has TOOL..: whether they are all there.
has() {
    for tool; do
        command -v "$tool" >/dev/null 2>&1 || return 1
    done
}

# The sources of the proved program that are younger than it.
younger_than_proved() (
    cd "$top/crates"
    find $(crates) ../crates.txt -name out -prune -o \
        \( -name '*.rt' -o -name '*.antt' -o -name crates.txt \) -newer "$proved" -print
)

# Those of the plain program, to which proofs are nothing.
younger_than_plain() (
    cd "$top/crates"
    find $(crates | sed 's,$,/src,') ../crates.txt ../scripts/plain-rust ../scripts/plain_rust \
        -type f -newer "$plain" -print
)

# Whether the proved program is there and up to date.
is_proved() {
    [ -x "$proved" ] && [ -z "$(younger_than_proved)" ]
}

# Whether the plain program is there and up to date.
is_compiled() {
    [ -x "$plain" ] && [ -z "$(younger_than_plain)" ]
}

# Says why there is no program, and ends.
give_up() {
    echo "mm: the program was not built: $1" >&2
    exit 4
}

# name_built FILE PROGRAM: gives the program its name only once it is whole, with the time at which
# its build began. So an interrupted build leaves no program, and a source that is changed meanwhile
# is noticed.
name_built() {
    cp "$1" "$2.$$" && touch -r "$began" "$2.$$" && mv -f "$2.$$" "$2"
}

# Builds the plain program, in a folder of its own: of two builds side by side each is whole.
compile() {
    for left in "$top/.plain"/build.*; do
        kill -0 "${left##*.}" 2>/dev/null || rm -rf "$left"
    done
    room=$top/.plain/build.$$
    began=$room/began
    child=
    trap 'rm -rf "$room" "$plain.$$"' EXIT
    trap '[ -z "$child" ] || kill "$child" 2>/dev/null || :; give_up interrupted' HUP INT TERM
    mkdir -p "$room" && : >"$began" || give_up "$top can't be written"
    if ! "$top/scripts/plain-rust" "$room/package" >"$room/log" 2>&1; then
        cat "$room/log" >&2
        give_up 'scripts/plain-rust failed'
    fi
    # This finds the program wherever the user's settings have cargo build it.
    env CARGO_TARGET_DIR="$room/target" cargo install --quiet --offline --root "$room" \
        --path "$room/package" >"$room/log" 2>&1 &
    child=$!
    if ! wait "$child"; then
        cat "$room/log" >&2
        give_up 'cargo failed'
    fi
    name_built "$room/bin/mm" "$plain" || give_up "$top can't be written"
    rm -rf "$room"
    trap - EXIT HUP INT TERM
}

# Shows how far the proof of a crate is, on one line of a terminal.
show_progress() {
    done=$(sed -n -e 's/^so far: \([0-9]* of [0-9]* functions\).*/: \1/p' \
        -e 's/^rt: .*; waiting for it.*/, waiting for another run/p' "$log" | tail -n 1)
    printf '\r\033[Kmm: %s%s, %s s' "$place" "$done" "$(($(date +%s) - start))" >&2
}

# Runs rt with these words in the crate, tells how far it is, and ends where it fails.
run_rt() {
    start=$(date +%s)
    (cd "$top/crates/$crate" && exec rt "$@") >"$log" 2>&1 &
    child=$!
    while [ -t 2 ] && kill -0 "$child" 2>/dev/null; do
        show_progress
        sleep 0.3 2>/dev/null || sleep 1
    done
    status=0
    wait "$child" || status=$?
    [ ! -t 2 ] || printf '\r\033[K' >&2
    if [ "$status" != 0 ]; then
        cat "$log" >&2
        give_up "$crate is not proved"
    fi
    echo "mm: $place: $(($(date +%s) - start)) s" >&2
}

# Proves and builds the proved program: its libraries side by side, and then the program. What is
# proved is kept by rt: it goes on where an earlier run was interrupted.
prove() {
    "$top/scripts/logic" --check || echo 'mm: so a proof may be refused here' >&2
    cores=$(getconf _NPROCESSORS_ONLN 2>/dev/null || echo 1)
    log=$(mktemp)
    began=$(mktemp)
    child=
    trap 'rm -f "$log" "$began" "$proved.$$"' EXIT
    trap '[ -z "$child" ] || { kill "$child" 2>/dev/null; wait "$child"; } || :
        [ ! -t 2 ] || echo >&2
        give_up "interrupted. What is proved is kept: the next proof goes on there"' HUP INT TERM
    "$top/scripts/prove" $(crates | sed '$d') &
    child=$!
    wait "$child" || give_up 'a library is not proved'
    crate=mm_tool
    count=$(crates | wc -l | tr -d ' ')
    place="crate $count of $count, $crate"
    run_rt run --jobs "$cores" -- help
    name_built "$top/crates/mm_tool/out/mm_tool" "$proved"
    rm -f "$log" "$began"
    trap - EXIT HUP INT TERM
}

# choose IS_TEXT: sets `program` to the one that is to run: the proved one where it is up to date,
# else the plain one, which is built where cargo is there; else the proved one, after its proof.
# Where a text alone is asked for, nothing is built beside a program that is there.
choose() {
    is_text=$1
    built=$([ -e "$proved" ] || [ -e "$plain" ] && echo 'out of date' || echo 'not built yet')
    if is_proved; then
        program=$proved
    elif is_compiled; then
        program=$plain
    elif "$is_text" && [ -x "$proved" ]; then
        program=$proved
    elif "$is_text" && [ -x "$plain" ]; then
        program=$plain
    elif has cargo python3; then
        echo "mm: the program is $built, so cargo builds it now, in half a minute. This build" \
            "isn't proved: \`$launcher prove\` makes the proved one ($proof_takes), which then" \
            "takes its place" >&2
        compile
        program=$plain
    elif has rt; then
        echo "mm: the program is $built, so it is proved and built now ($proof_takes)" >&2
        prove
        program=$proved
    elif has cargo; then
        give_up 'cargo needs python3 beside it, which is not on PATH'
    else
        give_up "install Rust (cargo) and python3, to build it in half a minute, or put the kit \
(rt) on PATH, to prove it first"
    fi
}
