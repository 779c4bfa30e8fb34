#!/usr/bin/env bats
# The stand-in before lcov: files that are no tracefiles, options that change nothing, and calls that go to the real lcov.
#
# need lcov lcov

load common

# A tracefile with two sources. By hand: 3 of 4 lines are hit.
some_info() { # FILE
    printf '%s\n' TN:t SF:/p/src/a.c FN:1,f FNDA:2,f BRDA:1,0,0,2 BRDA:1,0,1,- DA:1,2 DA:2,0 DA:3,1 end_of_record \
        TN:t SF:/p/tests/b.c DA:1,1 end_of_record >"$1"
}
# A lcov that tells that it was called stands before the real one.
marked() {
    mkdir -p marked
    printf '#!/bin/sh\necho "the real lcov" >&2\nexit 99\n' >marked/lcov
    chmod +x marked/lcov
}
# The stand-in, with that lcov behind it.
stand_in() { call env PATH="$PWD/marked:$PATH" "$recipes/lcov" "$@"; } # WORDS...

# Records without the totals that lcov writes where there is nothing, and in one order.
even() { # FILE
    awk '/^FNF:0$/ || /^FNH:0$/ { next } { print }' "$1" | sort
}
# The same words to lcov 1.16 and to the stand-in: covcollect does it, and the status, the records in OUT and the summary are the same.
as_lcov() { # WHAT OUT WORDS...
    local what=$1 out=$2
    shift 2
    rm -f "$out"
    call lcov "$@"
    sed -n '/^Summary/,$p' "$work/out" >theirs.said
    ended 0 "lcov: $what, by lcov 1.16"
    even "$out" >theirs
    rm -f "$out"
    stand_in "$@"
    ended 0 "lcov: $what, by covcollect"
    holds "lcov: $what, with nothing on standard error" [ ! -s "$work/err" ]
    even "$out" >ours
    same theirs ours "lcov: $what, the records are those of lcov 1.16"
    same theirs.said "$work/out" "lcov: $what, so is the summary"
}

@test "files that are no tracefiles" {
    local name words
    some_info a.info
    marked
    printf '<html>\n<body>404 not found</body>\n</html>\n' >page.html
    printf 'no tracefile\n' >text.info
    : >empty.info
    printf 'TN:t\nSF:/a.c\nend_of_record\n' >bare.info
    printf 'TN:t\nSF:/a.c\nFN:1,f\nFNDA:1,f\nend_of_record\n' >functions.info
    cp a.info out.info
    for name in page.html text.info empty.info bare.info functions.info; do
        for words in "-a $name -o out.info" "-a a.info -a $name -o out.info" "--summary $name" "--summary a.info --summary $name" \
            "-e $name */src/* -o out.info" "-r $name */src/* -o out.info"; do
            set -f
            # shellcheck disable=SC2086 # several words
            call lcov $words
            ended 255 "lcov: $words, by lcov 1.16"
            # shellcheck disable=SC2086
            stand_in $words
            set +f
            ended 255 "lcov: $words"
            says "$work/err" 'lcov: which names the file' "lcov: $name: no line record in it (is it empty, or no tracefile?)"
        done
    done
    same a.info out.info 'lcov: the output is as it was'
    stand_in -a page.html -a a.info -a empty.info -o out.info
    says "$work/err" 'lcov: each such file is named' "lcov: page.html: no line record in it (is it empty, or no tracefile?)" \
        "lcov: empty.info: no line record in it (is it empty, or no tracefile?)"
    stand_in --summary empty.info --fail-under-lines 0
    ended 255 'lcov: an empty file where no line is needed'
}

@test "files that are no plain files" {
    local name
    some_info a.info
    marked
    mkdir folder
    mkfifo pipe
    for name in folder pipe; do
        call lcov --summary $name
        ended 255 "lcov: a $name, by lcov 1.16"
        call timeout 5 "$recipes/lcov" --summary $name
        ended 255 "lcov: a $name"
        says "$work/err" 'lcov: which is named' "lcov: $name: not a plain file"
    done
    stand_in -a a.info -a nothing.info
    ended 1 "lcov: a tracefile that isn't there"
    says "$work/err" 'lcov: which is named' "nothing.info: can't read"
}

@test "options that change nothing" {
    local option branches=(--rc lcov_branch_coverage=1)
    some_info a.info
    marked
    # As AX_CODE_COVERAGE and Meson write them.
    as_lcov 'remove, as AX_CODE_COVERAGE writes it' own.info --quiet --directory . --remove a.info '*/tests/*' --output-file own.info \
        "${branches[@]}" --gcov-tool gcov
    as_lcov 'remove, of several folders' own.info --directory x --directory y --remove a.info '*/tests/*' --output-file own.info "${branches[@]}"
    as_lcov 'extract with -d' own.info -e a.info '*/src/*' -d . -o own.info "${branches[@]}"
    as_lcov 'add with --directory=' all.info -a a.info --directory=. -a a.info -o all.info "${branches[@]}"
    as_lcov 'add with --output' all.info -a a.info -a a.info --output all.info "${branches[@]}"
    as_lcov 'extract with --output=' own.info -e a.info '*/src/*' --output=own.info "${branches[@]}"
    for option in --derive-func-data '-k fs' --kernel-directory=fs '--rc geninfo_auto_base=1' '--rc lcov_gcov_dir=/x' '--rc of_nobody=1' \
        '--rc genhtml_hi_limit=90' --debug --initial -i '--include /x' '--exclude /x' --list-full-path --no-list-full-path \
        '--rc lcov_list_width=41' '--to-package x' '--from-package x' '--path x' '--strip 2' --convert-filenames '-di x'; do
        # shellcheck disable=SC2086 # one or two words
        as_lcov "add with $option" all.info $option -a a.info -a a.info -o all.info "${branches[@]}"
    done
}

@test "a configuration file" {
    some_info a.info
    marked
    printf '%s\n' '# of a project' '' 'lcov_branch_coverage = 1 # kept' 'genhtml_branch_coverage=1' '  lcov_function_coverage =1' \
        'geninfo_adjust_src_path = /a => /b' >.lcovrc
    as_lcov 'add with --config-file, as Meson writes it' all.info -a a.info -a a.info --rc lcov_branch_coverage=1 -o all.info --config-file .lcovrc
    as_lcov 'remove with --config-file' own.info --config-file=.lcovrc -r a.info '*/tests/*' -o own.info
    # 3 of 4 lines are 75%. A threshold counts in the order option, --rc, file.
    printf 'lcov_fail_under_lines = 76\r\n' >high
    printf 'lcov_fail_under_lines=75' >low
    local words
    for words in '--config-file high' '--config-file low' '--config-file high --rc lcov_fail_under_lines=75' \
        '--rc lcov_fail_under_lines=76 --config-file low' '--rc lcov_fail_under_lines=75 --rc lcov_fail_under_lines=76' \
        '--fail-under-lines 75 --rc lcov_fail_under_lines=76 --config-file high' '--fail-under-lines 76 --rc lcov_fail_under_lines=75'; do
        # shellcheck disable=SC2086 # several words
        call lcov --summary a.info $words
        local theirs=$status
        # shellcheck disable=SC2086
        stand_in --summary a.info $words
        holds "lcov: --summary with $words, the status is that of lcov 1.16 ($theirs)" [ "$status" -eq "$theirs" ]
    done
    printf 'lcov_function_coverage = 0\n' >off
    as_lcov 'functions that --rc turns on again' all.info -a a.info -o all.info --config-file off --rc lcov_function_coverage=1 --rc lcov_branch_coverage=1
    printf 'this is no setting\n' >odd
    stand_in -a a.info -o all.info --config-file odd
    ended 0 'lcov: a line that is no setting'
    says "$work/err" 'lcov: which is told' 'lcov: odd: no setting: this is no setting'
}

# A merge that the real lcov does is told, with the reason, in one line.
@test "calls that go to the real lcov" {
    local words reason
    some_info a.info
    gzip --keep a.info
    marked
    printf 'lcov_function_coverage = 0\n' >off
    while IFS='|' read -r words reason; do
        # shellcheck disable=SC2086 # several words
        stand_in $words
        ended 99 "lcov: lcov $words goes to the real one"
        printf '%s\n' "lcov: $reason, so this call goes to $PWD/marked/lcov" 'the real lcov' >wanted
        same wanted "$work/err" 'lcov: which one line tells, with the reason'
    done <<'WORDS'
-a a.info --unknown|--unknown isn't known here
--no-such=x -r a.info x|--no-such=x isn't known here
-e a.info x --outp o|--outp isn't known here
-a a.info --rc lcov_function_coverage=0|lcov_function_coverage=0 isn't known here
-a a.info --config-file off|lcov_function_coverage=0 isn't known here
--add-tracefile=a.info --config-file nothing|--config-file nothing can't be read
-a a.info.gz -a a.info|a.info.gz is compressed
-a a.info --rc lcov_list_width=40|lcov_list_width=40 isn't known here
-a a.info --fail-under-lines many|--fail-under-lines many isn't known here
WORDS
    for words in '-c -d .' '-z -d .' --version '-l a.info' '-a a.info -e a.info' '-a' '-a a.info word' '--summary a.info --rc lcov_function_coverage=0' \
        '-c -d . --config-file off' '-a a.info --strip many' '-a a.info --rc alone'; do
        # shellcheck disable=SC2086
        stand_in $words
        ended 99 "lcov: lcov $words goes to the real one"
        printf '%s\n' 'the real lcov' >wanted
        same wanted "$work/err" 'lcov: of which nothing is told, since it is no merge, or wrong'
    done
    # By the real one, to its end.
    call "$recipes/lcov" -a a.info.gz -a a.info -o all.info
    ended 0 'lcov: a packed tracefile'
    says all.info 'lcov: which the real lcov added' DA:1,4
    holds 'lcov: and of which one line tells' [ "$(cat "$work/err")" = "lcov: a.info.gz is compressed, so this call goes to $(command -v lcov)" ]
}
