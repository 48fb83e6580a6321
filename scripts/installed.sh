#!/bin/sh
# usage: scripts/installed.sh [PROGRAM]
# Installs the program into a folder of its own (scripts/install), that of ./mm or the one given,
# and looks whether it works from there, whether the man page has each command, whether completions
# offer what they should, and whether a release has the same bytes twice and the sum that it tells.
# What needs groff, bash, zsh or fish is left out where these are not there.
set -eu
top=$(CDPATH='' cd -- "$(dirname -- "$0")/.." && pwd)
folder=$(mktemp -d)
trap 'rm -rf "$folder"' EXIT
trap 'exit 1' HUP INT TERM
failures=0

# fails WHAT: tells what is wrong.
fails() {
    echo "installed.sh: $1" >&2
    failures=$((failures + 1))
}

# has TOOL: whether it is there.
has() {
    command -v "$1" >/dev/null 2>&1
}

"$top/scripts/install" "$folder/pre fix" "$@" >/dev/null
share="$folder/pre fix/share"
PATH="$folder/pre fix/bin:$PATH"
export PATH
mkdir "$folder/here"
cp "$top/examples/"*.mm "$folder/here"
cd "$folder/here"
[ "$(mm check first.mm)" = 'yes 7 statements 1 proofs' ] || fails 'the program does not work'

# The launcher stands for the program that it builds, by a link too.
if [ $# = 0 ]; then
    ln -s "$top/mm" "$folder/mm"
    "$top/scripts/install" "$folder/linked" "$folder/mm" >/dev/null 2>&1 || fails 'the launcher'
    cmp -s "$folder/linked/bin/mm" "$folder/pre fix/bin/mm" || fails 'the launcher was installed'
fi

# options COMMAND: those that its page lists, one a line, and --help.
options() {
    mm help "$1" | sed -n '/^Options/,/^$/s/^  \(--[a-z]*\) .*/\1/p'
    echo '--help'
}

commands=$(mm 2>&1 | sed -n '/^Commands:/,/^$/s/^  \([a-z]*\) .*/\1/p')
completions="$share/bash-completion/completions/mm"
for command in $commands; do
    grep -q "^\.SS $command\$" "$share/man/man1/mm.1" || fails "the man page lacks $command"
    for option in $(options "$command"); do
        word=${option#--}
        [ "$option" = --help ] || sed -n "/^\.SS $command\$/,/^\.S[SH]/p" "$share/man/man1/mm.1" |
            grep -q -e "^\\\\-\\\\-$word" || fails "the man page of $command lacks $option"
        sed -n '/^_mm_flags/,/^}/p' "$completions" |
            grep -q -e "^    $command) .*[ ']$option[ ']" || fails "bash: $command lacks $option"
        grep -q -e "^        $command) .*'$option\[" "$share/zsh/site-functions/_mm" ||
            fails "zsh: $command lacks $option"
        grep -q -e "^complete .*_from $command' -l $word " "$share/fish/vendor_completions.d/mm.fish" ||
            fails "fish: $command lacks $option"
    done
done
[ -n "$commands" ] || fails 'the program lists no commands'
for words in '' --help '-x' "$folder/one two three" "$folder/one --help"; do
    for script in install release plain-rust; do
        status=0
        "$top/scripts/$script" $words >out.txt 2>err.txt || status=$?
        if [ "$status" != 2 ] || [ -s out.txt ] || ! grep -q "^usage: scripts/$script " err.txt; then
            fails "scripts/$script $words: status $status, wanted 2"
        fi
    done
done

if has groff; then
    groff -man -Tutf8 -ww -z "$share/man/man1/mm.1" 2>groff.txt
    [ ! -s groff.txt ] || fails "the man page: $(cat groff.txt)"
fi

# bash_offers WANTED WORDS..: after these words, the last of which is begun, bash offers these.
# Where it offers nothing of its own, that is `files`, or `nothing` where files are turned off.
bash_offers() {
    wanted=$1
    shift
    offered=$(bash -c '
        offered=files
        compopt() { offered=nothing; }
        source "$1"
        shift
        COMP_WORDS=(mm "$@") COMP_CWORD=$#
        _mm
        echo "${COMPREPLY[*]:-$offered}"' bash "$completions" "$@")
    [ "$offered" = "$wanted" ] || fails "bash offers for mm $*: $offered, wanted $wanted"
}

if has bash; then
    bash_offers check c
    bash_offers files check ''
    bash_offers --strict check first.mm --s
    bash_offers nothing axioms ''
    bash_offers files axioms th ''
    bash_offers nothing packed --file ''
    bash_offers files packed --all ''
    bash_offers nothing users --all ''
    bash_offers files users --all th ''
    bash_offers nothing show t
    bash_offers nothing show --known t
    bash_offers '--known --letters --uses --essential --help' show --
    for command in $commands; do
        bash_offers "$(echo $(options "$command"))" "$command" --
    done
    bash_offers P15 explain P15
    bash_offers version help v
    bash_offers nothing version ''
fi
if has zsh; then
    zsh -n "$share/zsh/site-functions/_mm" || fails 'the completion for zsh'
fi

# fish_offers WANTED LINE: at the end of this line fish offers these.
fish_offers() {
    offered=$(fish --no-config -c 'source $argv[1]; complete -C $argv[2]' -- \
        "$share/fish/vendor_completions.d/mm.fish" "$2" | cut -f 1 | tr '\n' ' ')
    [ "$offered" = "$1" ] || fails "fish offers for $2: $offered, wanted $1"
}

if has fish; then
    fish_offers 'check ' 'mm c'
    fish_offers '--strict ' 'mm check --s'
    fish_offers 'first.mm ' 'mm check fi'
    fish_offers '' 'mm axioms fi'
    fish_offers 'first.mm ' 'mm axioms th fi'
    fish_offers 'first.mm ' 'mm packed --all fi'
    fish_offers '' 'mm users --all fi'
    fish_offers 'first.mm ' 'mm users --all th fi'
    fish_offers '' 'mm show fi'
    fish_offers '--essential ' 'mm show --e'
    fish_offers 'M2 ' 'mm explain M2'
    fish_offers 'version ' 'mm help v'
fi

one=$("$top/scripts/release" "$folder/one" "$folder/pre fix/bin/mm")
two=$("$top/scripts/release" "$folder/two" "$folder/pre fix/bin/mm")
cmp -s "$one" "$two" || fails 'two releases differ'
(cd "$folder/one" && sha256sum -c ./*.sha256) >/dev/null 2>&1 || fails 'the sum of the release'
mkdir "$folder/unpacked"
tar -xzf "$one" -C "$folder/unpacked"
for program in "$folder"/unpacked/*/bin/mm; do
    cmp -s "$program" "$folder/pre fix/bin/mm" || fails 'the release lacks the program'
done

if [ "$failures" != 0 ]; then
    exit 1
fi
echo 'installed.sh: the program, its man page and its completions work where they are installed'
