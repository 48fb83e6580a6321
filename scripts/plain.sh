#!/bin/sh
# usage: scripts/plain.sh PROGRAM
# Asks of the program as plain Rust what no contract says of it: that deep nesting takes no stack, and
# that the databases of Debian's package, where that is installed, have the answers that the proved
# program gives.
set -eu
top=$(CDPATH='' cd -- "$(dirname -- "$0")/.." && pwd)
mm=${1?usage: scripts/plain.sh PROGRAM}
folder=$(mktemp -d)
trap 'rm -rf "$folder"' EXIT
trap 'exit 1' HUP INT TERM
passed=0
failed=0

# replies WANTED WORDS..: the program has this reply, with a stack of `stack` kilobytes, if any is said.
replies() {
    wanted=$1
    shift
    reply=$({ [ -z "$stack" ] || ulimit -s "$stack"; } && "$mm" "$@") || :
    if [ "$reply" = "$wanted" ]; then
        passed=$((passed + 1))
    else
        failed=$((failed + 1))
        echo "plain.sh: mm $*: $reply, wanted $wanted" >&2
    fi
}

awk 'BEGIN {
    for (i = 0; i < 100000; i++) { print "${" }
    for (i = 0; i < 100000; i++) { print "$}" }
}' >"$folder/deep.mm"
stack=256
replies 'yes 200000 statements 0 proofs' check "$folder/deep.mm"
replies "$(cat "$folder/deep.mm")" packed --all "$folder/deep.mm" "$folder/deep.mm"

stack=
# The answers that docs/PERFORMANCE.md lists are those for this version of the package.
package=$(dpkg-query -W -f='${Package} ${Version}' metamath-databases 2>/dev/null || :)
if [ -n "$package" ] && grep -q "$package" "$top/docs/PERFORMANCE.md"; then
    sed -n 's/^| \([a-z0-9-]*\.mm\) | [^|]* | \(yes [0-9]* statements [0-9]* proofs\) .*/\1 \2/p' \
        "$top/docs/PERFORMANCE.md" >"$folder/answers"
    while read -r name answer; do
        replies "$answer" check "/usr/share/metamath/databases/$name"
    done <"$folder/answers"
fi
echo "plain.sh: $passed passed, $failed failed"
[ "$failed" = 0 ]
