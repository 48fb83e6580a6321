#!/bin/sh
# Writes crates/mm_help/src/rules.rt and code_lines.rt, the texts of `mm explain`, from
# docs/RULES.md: each rule has a paragraph there that begins with its code in bold, with its usual
# cause and its remedy, or a row in the table of the files. Each section with rules is a chapter.
# What its paragraph says of the example stands below the example.
# `scripts/rules.sh --check` compares them.
set -eu
top=$(CDPATH='' cd -- "$(dirname -- "$0")/.." && pwd)
source=$top/docs/RULES.md
crate=$top/crates/mm_help/src

# The text of the named file: `rules` or `code_lines`.
made() {
    awk -v name="$1" '
    function quoted(text) {
        gsub(/[\\"]/, "\\\\&", text)
        return text
    }
    function finish() {
        if (code != "") {
            codes = codes cut(quoted(sentence)) "\n"
            if (chapters[count] != chapter) { chapters[++count] = chapter }
            rules[count] = rules[count] "    RuleText {\n        code: \"" code "\",\n"
            rules[count] = rules[count] "        text: \"" quoted(body) "\",\n    },\n"
        }
        code = ""
        body = ""
        aside = ""
        told = 0
    }
    # a text in lines of at most 80 bytes, without the asterisks of its variables
    function wrapped(text,    words, count, i, line, lines) {
        gsub(/\*/, "", text)
        count = split(text, words, " ")
        line = words[1]
        for (i = 2; i <= count; i++) {
            if (length(line) + 1 + length(words[i]) <= 80) {
                line = line " " words[i]
            } else {
                lines = lines line "\n"
                line = words[i]
            }
        }
        return lines line
    }
    # a line of a literal, cut where the source would be too wide
    function cut(text,    lines, width) {
        while (length(text) > 96) {
            width = 95
            while (substr(text, width, 1) != " ") { width-- }
            lines = lines substr(text, 1, width) "\\\n     "
            text = substr(text, width + 1)
        }
        return lines text
    }
    # the first sentence of a text
    function summary(text) {
        gsub(/\*/, "", text)
        sub(/\. .*/, ".", text)
        return text
    }
    function place(code) {
        if (code !~ /^[MP]/ && code != "L1") { return "" }
        return "Line: that where the statement begins; `mm why` tells the place in " \
            (code ~ /^M/ ? "it" : "the proof") ".\n"
    }
    /^\| F[0-9] \|/ {
        finish()
        split($0, cells, / *\| */)
        code = cells[2]
        sentence = summary(code ": " cells[3] ".")
        body = wrapped(code ": " cells[3] ".") "\nIt has no place. Reply: " cells[4] "\n"
        body = body wrapped("Usual cause: " cells[5] ".") "\n" wrapped("Remedy: " cells[6] ".") "\n"
        finish()
        next
    }
    # The last word of a heading names its chapter.
    /^## / { finish(); chapter = tolower($NF); next }
    /^\*\*[A-Z][0-9]+\*\*: / {
        finish()
        code = $0
        sub(/^\*\*/, "", code)
        sub(/\*\*.*/, "", code)
        text = $0
        sub(/^\*\*[A-Z][0-9]+\*\*: /, "", text)
        sentence = summary(code ": " text)
        # What is said of the example stands below it.
        if (match(text, / In the example /)) {
            aside = "Here " substr(text, RSTART + RLENGTH)
            text = substr(text, 1, RSTART - 1)
        }
        body = wrapped(code ": " text) "\n" place(code)
        next
    }
    code == "" { next }
    /^(Usual cause|Remedy): / { body = body wrapped($0) "\n"; next }
    # Further examples stand in the document alone: one is enough beside a reply.
    told && !/^$/ { next }
    # A question is no part of its file: the file alone breaks no rule of questions.
    /^```mm$/ {
        body = body (code ~ /^A/ || code == "L2" ? "\nA file:\n" : "\nThis file breaks it:\n")
        fenced = 1
        next
    }
    /^```reply$/ { body = body "\nThe reply:\n"; fenced = replied = 1; next }
    /^```reply / {
        sub(/^```reply /, "")
        body = body "\nThe reply to `mm " $0 " f.mm`:\n"
        fenced = replied = 1
        next
    }
    /^```$/ {
        if (aside != "") { body = body wrapped(aside) "\n"; aside = "" }
        told = replied
        fenced = replied = 0
        next
    }
    fenced { body = body "    " $0 "\n"; next }
    /^$/ { finish() }
    END {
        finish()
        if (name == "rules") {
            type = "&'"'"'static [RuleText<'"'"'static>]"
            printf "//! The rules, as `mm explain` tells them. "
            printf "Made by scripts/rules.sh from docs/RULES.md: edit that.\n\n"
            printf "use crate::rule_text::RuleText;\n\n"
            printf "// What is proved of a function that names a constant holds each byte of it. So "
            printf "each\n// chapter is a constant of its own, and comes from a call.\n"
            for (i = 1; i <= count; i++) {
                constant = toupper(chapters[i])
                printf "\nconst %s: &[RuleText<'"'"'static>] = &[\n%s];\n", constant, rules[i]
                printf "\nfn %s() -> %s {\n    %s\n}\n", chapters[i], type, constant
                calls = calls "        " chapters[i] "(),\n"
            }
            printf "\n/// The chapters, in the order of their rules.\n"
            printf "pub fn rule_chapters() -> [%s; %d] {\n", type, count
            printf "    [\n%s    ]\n}\n", calls
        } else {
            printf "//! The codes of the rules. "
            printf "Made by scripts/rules.sh from docs/RULES.md: edit that.\n\n"
            printf "/// A line for each code.\n"
            printf "pub(crate) const CODES: &str =\n    \"%s\";\n", codes
        }
    }' "$source"
}

for name in rules code_lines; do
    target=$crate/$name.rt
    if [ "${1-}" != --check ]; then
        made "$name" >"$target"
    elif ! made "$name" | cmp -s - "$target"; then
        echo "scripts/rules.sh: docs/RULES.md and $target differ; run scripts/rules.sh" >&2
        exit 1
    fi
done
