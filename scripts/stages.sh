# Functions of `./test` and `.ci/run`: stages, each with its name, its time and what it counts. Who
# reads this stands at the top of the repository, and has set `top` to it.

. "$top/scripts/programs.sh"
work=$(mktemp -d)
trap 'rm -rf "$work"' EXIT
trap 'exit 1' HUP INT TERM
passed=0
failed=0
skipped=0
failures=

# count FILE: the cases that passed and failed, by the lines `NAME: N passed, M failed` of an output;
# where its last line is only `N passed, M failed`, by that. Nothing where there are none.
count() {
    awk '
    /(^|: )[0-9]+ passed, [0-9]+ failed/ {
        text = $0
        sub(/ passed, /, " ", text)
        sub(/ failed.*/, "", text)
        sub(/^.*: /, "", text)
        split(text, found, " ")
        good += found[1]
        bad += found[2]
        any = 1
    }
    { is_sum = /^[0-9]+ passed, [0-9]+ failed$/ }
    is_sum { good = found[1]; bad = found[2] }
    END { if (any) { print good + 0, bad + 0 } }' "$1"
}

# stage NAME COMMAND..: runs a stage without input. A stage that counts no cases is one; one that ends
# with another status than 0 failed, whatever it counts.
stage() {
    name=$1
    shift
    echo "== $name"
    begin=$(date +%s)
    echo 1 >"$work/status"
    {
        status=0
        "$@" </dev/null || status=$?
        echo "$status" >"$work/status"
    } 2>&1 | tee "$work/log"
    status=$(cat "$work/status")
    cases=$(count "$work/log")
    good=${cases% *}
    bad=${cases#* }
    if [ "$status" != 0 ] && [ "${bad:-0}" = 0 ]; then
        bad=1
    fi
    if [ -z "$cases" ] && [ "$status" = 0 ]; then
        good=1
    fi
    passed=$((passed + ${good:-0}))
    failed=$((failed + ${bad:-0}))
    if [ "$status" = 0 ] && [ "${bad:-0}" = 0 ]; then
        echo "== passed, $(($(date +%s) - begin)) s: $name"
    else
        echo "== FAILED, $(($(date +%s) - begin)) s: $name"
        failures="$failures
    $name"
    fi
}

# skip NAME WHY: counts a stage as left out.
skip() {
    echo "== skipped: $1: $2"
    skipped=$((skipped + 1))
}

# Stages that need no program: sources, documents and lists.
stages_of_sources() {
    stage 'the texts of mm explain are those of docs/RULES.md' scripts/rules.sh --check
    stage 'the examples are those of the documents' docs/make-examples --check
    stage 'lack of memory is told where it was met' scripts/memory.sh
    stage 'each file of definitions and of lemmas says what it has' scripts/heads --check
    if has rt; then
        stage 'each source is in the layout' scripts/layout
    else
        skip 'each source is in the layout' 'rt is not on PATH'
    fi
    stage 'no crate and no chain of crates is too large' scripts/chain --check
    stage 'docs/CONTRACTS.md is that of the sources' scripts/contracts --check
    stage 'the figure of the crates is that of the sources' scripts/figure --check
    stage 'the edits that the gate does not try can be applied' scripts/edits --check
    stage 'the launcher runs, builds and proves what it should' scripts/launcher.sh
}

# stages_of KIND PROGRAM: stages that run a program, the plain or the proved one.
stages_of() {
    kind=$1
    if [ "$kind" = plain ]; then
        stage 'plain: replies and statuses' scripts/statuses.sh --plain "$2"
        stage 'plain: deep nesting and databases' scripts/plain.sh "$2"
    else
        stage 'proved: replies and statuses' scripts/statuses.sh
    fi
    stage "$kind: the replies of the documents" docs/make-examples --run "$2"
    stage "$kind: the tutorial shows what is printed" scripts/tutorial "$2"
    stage "$kind: hostile files cost no more than they may" bench/hostile --program "$2" --gate
    if [ "$kind" = plain ]; then
        stage 'plain: what is installed and released' scripts/installed.sh "$2"
    else
        stage 'proved: what is installed and released' scripts/installed.sh
    fi
}

# Prints the sum, which is the last line, and ends: with 0 where nothing failed.
finish() {
    if [ -n "$failures" ]; then
        echo "failed at:$failures"
    fi
    if [ "$skipped" = 0 ]; then
        echo "$passed passed, $failed failed"
    else
        echo "$passed passed, $failed failed, $skipped skipped"
    fi
    [ "$failed" = 0 ]
    exit
}
