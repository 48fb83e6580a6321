#!/bin/sh
# Fails where a source tells that memory was refused without a refused growth. No contract can see
# whether a growth was refused, so this is what looks; tests are left out:
#
# - `Memory` is made in one place of each fault type alone: the conversion from `AllocError` or
#   `AllocFailed`. Everything else passes it on, by `?`, or in an arm of a `match` whose pattern is
#   itself `Memory` (or `OutOfMemory`). An `AllocError` or `AllocFailed` is named as a type alone,
#   and as a value only to be passed on in the same way.
# - A pattern has no other variant beside `Memory`: another fault would be told as lack of memory.
# - No room is asked for by the greatest number of a type, which is refused whatever memory there
#   is. Three places need that, where a number passes what is stored in 32 bits: `reserve_numbered` of
#   mm_frame's lists.rt, `push_piece` of its pattern.rt, and `make_entry_room` of mm_proof's parse.rt.
# - Room is asked for by a product only where a refusal is passed over, by `let _ =`: else more might
#   be asked for than is needed, and its refusal told.
set -eu
top=$(CDPATH='' cd -- "$(dirname -- "$0")/.." && pwd)
cd "$top"
find crates -name out -prune -o -path crates/mm_tests -prune -o -path crates/mm_core_tests -prune -o -path '*/src/*' -name '*.rt' \
    ! -name tests.rt ! -path '*/tests/*' -print | sort | xargs awk '
    function complain(file, line, what, text) {
        sub(/^[ \t]+/, "", text)
        printf "%s:%d: %s: %s\n", file, line, what, text
        found = 1
    }
    # the text without the types in it that are named AllocError or AllocFailed
    function without_types(text) {
        gsub(/(: *|, |<)(std::alloc::)?Alloc(Error|Failed<[^>]*>)/, "", text)
        gsub(/<[A-Z][A-Za-z]* = (std::alloc::)?AllocError/, "", text)
        if (text ~ /^[ \t]*(pub(\([a-z]+\))? )?type [A-Za-z]+ = /) {
            gsub(/Alloc(Error|Failed<[^>]*>)/, "", text)
        }
        return text
    }
    # whether a pattern has another variant beside Memory
    function adds_variant(text,    parts, count, i, memories) {
        sub(/=>.*/, "", text)
        count = split(text, parts, / \| /)
        for (i = 1; i <= count; i++) {
            if (parts[i] ~ /(^|[^A-Za-z_])(Out[oO]f)?Memory/) { memories++ }
        }
        return memories > 0 && memories < count
    }
    function is_greatest(text,    name) {
        if (text ~ /[iu](8|16|32|64|128|size)::MAX|max_value\(|![0-9]/) { return 1 }
        for (name in greatest) {
            if (text ~ "(^|[^A-Za-z0-9_])" name "([^A-Za-z0-9_]|$)") { return 1 }
        }
        return 0
    }
    # whether a call for room has a product in it, or the name of one
    function is_product(text,    name) {
        if (text ~ / \* | << |_mul\(|pow\(/) { return 1 }
        for (name in products) {
            if (text ~ "(^|[^A-Za-z0-9_])" name "([^A-Za-z0-9_]|$)") { return 1 }
        }
        return 0
    }
    # what a pattern over several lines, or a call for room, was when it began
    function end_pattern() {
        if (adds_variant(pending)) {
            complain(file, pending_line, "a pattern has another variant beside `Memory`", pending)
        }
        pending = ""
    }
    function end_call() {
        if (call != "" && is_greatest(call) && !(file ":" name in needs_it)) {
            complain(file, call_line, "asks for more room than there can be", call)
        }
        if (call != "" && !is_hint && is_product(call)) {
            complain(file, call_line, "asks for room by a product, and tells its refusal", call)
        }
        call = ""
        depth = 0
    }
    # gathers a call for room until its brackets are closed
    function gather(text,    i, letter) {
        if (call == "") {
            if (!match(text, /(reserve|with_capacity)[a-z_]*(::<[^>]*>)?\(/)) { return }
            if (text ~ /fn [a-z_]*(reserve|with_capacity)/) { return }
            is_hint = substr(text, 1, RSTART - 1) ~ /let _ = [a-z_.]*$/
            text = substr(text, RSTART)
            call_line = FNR
        }
        for (i = 1; i <= length(text); i++) {
            letter = substr(text, i, 1)
            call = call letter
            if (letter == "(") { depth++ }
            if (letter == ")" && --depth == 0) {
                end_call()
                gather(substr(text, i + 1))
                return
            }
        }
    }
    BEGIN {
        needs_it["crates/mm_frame/src/lists.rt:reserve_numbered"]
        needs_it["crates/mm_frame/src/pattern.rt:push_piece"]
        needs_it["crates/mm_proof/src/parse.rt:make_entry_room"]
    }
    FNR == 1 {
        end_pattern()
        end_call()
        conversion = 0
        pattern = ""
        name = ""
        file = FILENAME
        for (each in greatest) { delete greatest[each] }
        for (each in products) { delete products[each] }
    }
    /^[ \t]*\/\// { next }
    /^[ \t]*(pub(\([a-z]+\))? )?(ghost )?use / { next }
    /^impl.* From<(std::alloc::)?Alloc(Error|Failed<[^>]*>)> for / { conversion = 1 }
    /^}/ { conversion = 0 }
    match($0, /fn [a-z_0-9]+/) {
        name = substr($0, RSTART + 3, RLENGTH - 3)
        for (each in products) { delete products[each] }
    }
    /^[ \t]*(pub(\([a-z]+\))? )?(let|const|static) .*=/ && !/(reserve|with_capacity)/ {
        text = $0
        sub(/.*=/, "", text)
        named = $0
        sub(/^[ \t]*(pub(\([a-z]+\))? )?(let|const|static) (mut )?/, "", named)
        sub(/[^A-Za-z0-9_].*/, "", named)
        if (is_greatest(text)) { greatest[named] }
        if (is_product(text)) { products[named] }
    }
    { gather($0) }
    {
        if ($0 ~ /^[ \t]*\| /) {
            text = $0
            sub(/^[ \t]+/, "", text)
            pending = pending " " text
        } else {
            end_pattern()
            pending = $0
            pending_line = FNR
        }
    }
    {
        body = $0
        if (match($0, /=>/)) {
            pattern = substr($0, 1, RSTART - 1)
            body = substr($0, RSTART + 2)
        } else if (body ~ /^[ \t]*}/) {
            pattern = ""
        }
        passes = pattern ~ /::(Out[oO]f)?Memory/
        values = without_types(body)
        makes = values ~ /::Memory/ || values ~ /Alloc(Error|Failed)/
        if (makes && !conversion && !passes) {
            complain(FILENAME, FNR, "makes a lack of memory that no growth refused", $0)
        }
    }
    END {
        end_pattern()
        end_call()
        exit found
    }'
