#!/usr/bin/env bats
# lcov, the stand-in, in what Meson makes of 'ninja coverage-html'.
#
# need gcc gcc
# need g++ g++
# need meson meson
# need ninja-build ninja
# need lcov geninfo

load common
load builds

setup_file() {
    cd "$BATS_FILE_TMPDIR" || return
    many_sources project
    cat >project/meson.build <<'END'
project('tried', 'c', 'cpp')
sources = []
foreach number : range(1, 64)
    sources += 'src/unit_@0@.c'.format(number)
endforeach
units = static_library('units', sources, 'src/unit_64.cc')
foreach number : range(1, 41)
    name = 'test_@0@'.format(number)
    test(name, executable(name, 'tests' / name + '.c', link_with : units, link_language : 'cpp'))
endforeach
END
    { meson setup -Db_coverage=true project/build project && ninja -C project/build -j 2 && meson test -C project/build --num-processes 2; } \
        >log 2>&1 3>&- 4>&- </dev/null || { tail -n 20 log >&2; return 1; }
}
coverage_html() { # WHAT
    both "$1" "$BATS_FILE_TMPDIR/project/build/meson-logs/coverage.info" 3 ninja -C "$BATS_FILE_TMPDIR/project/build" coverage-html
    holds "$1: genhtml made pages" [ -f "$BATS_FILE_TMPDIR/project/build/meson-logs/coveragereport/index.html" ]
    by_baseline "$1"
    holds "$1: there are branches" grep -q '^BRDA:' "$work/standin.info"
}

@test 'coverage-html' {
    coverage_html meson
}

# As the pages have it, typed in the project's folder: the whole line in recipes/README.md, and in the others what stands before a call.
the_line() { # PAGE
    local page=$recipes/../$1
    case $1 in
        recipes/*) sed -nE 's/^    (PATH=[^ ]+ ninja .*coverage-html)$/\1/p' "$page" ;;
        *) echo "$(grep -oE '`PATH=[^`]+`' "$page" | tr -d '`') ninja -C build coverage-html" ;;
    esac
}

@test 'the lines of the pages' {
    local page line
    mkdir "$BATS_FILE_TMPDIR/project/ci"
    cp "$recipes/lcov" "$BATS_FILE_TMPDIR/project/ci"
    printf '#!/bin/bash\necho "$*" >>"%s"\nexec "%s" "$@"\n' "$work/asked" "$COVCOLLECT" >"$work/noting"
    chmod +x "$work/noting"
    for page in README.md docs/MIGRATING.md recipes/README.md; do
        holds "meson: $page: names the directory ci" grep -qE 'directory `ci`|into `ci/`' "$recipes/../$page"
        rm -f "$work/asked" "$BATS_FILE_TMPDIR/project/build/meson-logs/coverage.info"
        line=$(the_line "$page")
        call env -C "$BATS_FILE_TMPDIR/project" COVCOLLECT="$work/noting" bash -c "$line"
        ended 0 "meson: $page: $line"
        holds "meson: $page: covcollect merges and filters three times" [ "$(grep -E '^(merge|extract|remove) ' "$work/asked" | grep -vc -- --help)" -eq 3 ]
    done
}

@test 'coverage-html with a .lcovrc' {
    printf '# of the project\ngenhtml_num_spaces = 4\nlcov_list_width=100\n' >"$BATS_FILE_TMPDIR/project/.lcovrc"
    coverage_html 'meson with a .lcovrc'
    holds 'meson with a .lcovrc: its calls have --config-file' [ "$(merges "$work/calls.standin" | grep -c -- '--config-file')" -eq 3 ]
}
