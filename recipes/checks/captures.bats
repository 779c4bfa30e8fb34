#!/usr/bin/env bats
# combine, on small captures as tools write them: data/captures/captures.tsv says which tool wrote each. Those of the folder other-totals
# aren't read here.

load common

folder=$recipes/checks/data/captures
captures=("$folder"/*.info)

# The last call ended well and told nothing.
silent() { # WHAT
    ended 0 "$1"
    same /dev/null "$work/err" "$1: nothing is told"
}
# The number of different source lines that captures count.
lines_of() { # CAPTURE...
    awk -F '[:,]' '$1 == "SF" { file = $0 } $1 == "DA" && !seen[file, $2]++ { lines++ } END { print lines + 0 }' "$@"
}
has_lines() { # WHAT NUMBER: whether the summary of the last call has so many lines
    holds "$1: $2 lines are counted" grep -qE "^  lines\.*: .* of $2 lines\)$" "$work/out"
}

@test "the table" {
    local lines
    grep -v '^#' "$folder/captures.tsv" | tail -n +2 | cut -f 1 | sort >listed
    (cd "$folder" && find . -name '*.info' -printf '%P\n' | sort) >there
    same there listed 'captures.tsv: each capture has a line'
    lines=$(cd "$folder" && find . -name '*.info' -exec sed -n '40{F;q}' {} \;)
    holds 'captures.tsv: each capture has less than 40 lines' [ -z "$lines" ]
    [ -z "$lines" ] || show <<<"$lines"
}

@test "each alone" {
    local file name
    for file in "${captures[@]}"; do
        name=$(basename "$file" .info)
        call "$COVCOLLECT" combine -o own.info "$file"
        silent "combine: $name"
        has_lines "combine: $name" "$(lines_of "$file")"
        call "$COVCOLLECT" combine --strict -o strict.info "$file"
        silent "combine --strict: $name"
        # What combine prints is a capture too.
        call "$COVCOLLECT" combine --strict own.info
        silent "combine: $name, again"
        same own.info "$work/out" "combine: $name, again: the same bytes"
    done
}

@test "all together" {
    local words
    for words in --one-test --one-test=all --strict '--strict --one-test -j 1' '-j 64'; do
        # shellcheck disable=SC2086 # options
        call "$COVCOLLECT" combine $words --expect ${#captures[@]} -o all.info "${captures[@]}"
        silent "combine $words: all"
        has_lines "combine $words: all" "$(lines_of "${captures[@]}")"
    done
}

# The capture without its first line of this form, in broken.info.
without() { # FORM CAPTURE: whether there was one
    awk -v form="$1" '!gone && $0 ~ form { gone = 1; next } { print } END { exit !gone }' "$2" >broken.info
}
# Totals are written below what they count. That of lines is trusted only where lcov writes it, at the end of the lines.
is_below_lines() { awk '/^LF:/ { bad = bad || above !~ /^DA:/; found = 1 } { above = $0 } END { exit bad || !found }' "$1"; } # CAPTURE
is_noticed() { # WHAT
    call "$COVCOLLECT" combine -o out.info broken.info
    ended 0 "$1"
    holds "$1: a warning" grep -qxE "broken\.info: warning: [0-9]+ lines? (doesn't|don't) fit: .*" "$work/err"
    call "$COVCOLLECT" combine --strict -o out.info broken.info
    ended 5 "$1, strictly"
}

@test "a line is lost" {
    local file name
    for file in "${captures[@]}"; do
        name=$(basename "$file" .info)
        ! is_below_lines "$file" || ! without '^DA:' "$file" || is_noticed "combine: $name without a DA"
        ! grep -q '^BRF:' "$file" || ! without '^BRDA:' "$file" || is_noticed "combine: $name without a BRDA"
        ! without '^FN:' "$file" || is_noticed "combine: $name without an FN"
        if without '^FNL:' "$file"; then
            call "$COVCOLLECT" combine broken.info
            ended 4 "combine: $name without an FNL"
        fi
    done
}
