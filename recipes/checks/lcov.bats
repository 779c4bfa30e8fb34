#!/usr/bin/env bats
# lcov, the stand-in, beside the real lcov 1.16.
#
# need gcc gcc
# need g++ g++
# need lcov lcov

load common
load projects

# A tracefile in a form that is the same for the stand-in and for lcov, which writes functions of one line in any order, and totals
# where there are none.
even_records() { # FILE
    awk '/^TN:/ { section++; none = 0 }
        /^FNF:0$/ { none = 1; next }
        /^FNH:0$/ && none { next }
        { kind = /^(TN|SF):/ ? 0 : /^FN(DA)?:/ ? 1 : 2; printf "%09d\t%d\t%09d\t%s\n", section, kind, kind == 1 ? 0 : NR, $0 }' "$1" |
        sort | cut -f 4-
}
# Calls lcov and the stand-in with the same words, each in its own folder, and compares what they wrote to OUT.
like_lcov() { # WHAT OUT WORDS...
    local what=$1 out=$2
    shift 2
    rm -rf theirs ours
    cp -r files theirs
    cp -r files ours
    call env -C theirs lcov "$@"
    ended 0 "lcov: $what, by lcov 1.16"
    sed -n '/^Summary/,$p' "$work/out" >theirs.said
    call env -C ours "$recipes/lcov" "$@"
    ended 0 "lcov: $what"
    cp "$work/out" ours.said
    even_records "theirs/$out" >theirs.even
    even_records "ours/$out" >ours.even
    same theirs.even ours.even "lcov: $what, the records are those of lcov 1.16"
    same theirs.said ours.said "lcov: $what, so is the summary"
}

# Counts of a C and a C++ program by geninfo, and names with the characters that patterns are made of.
lcov_files() {
    local path
    mkdir -p files/c
    (cd files/c && programs && gcc --coverage -O0 -o tiny tiny.c && g++ --coverage -O0 -o half half.cpp && ./tiny && ./half)
    geninfo --quiet --rc lcov_branch_coverage=1 --test-name both --output-filename files/both.info files/c >"$work/log" 2>&1
    (cd files/c && ./tiny)
    geninfo --quiet --rc lcov_branch_coverage=1 --test-name tiny --output-filename files/tiny.info files/c >"$work/log" 2>&1
    for path in '/s/[ab].c' /s/a.c '/s/!a.c' '/s/\a.c' '/s/[!a].c' '/s/]' '/s/[' '/s/\' '/s/\\' '/s/{a,b}' '/s/a|b' '/s/(a)' '/s/$HOME' '/s/a+' '/s/^a'; do
        printf 'TN:names\nSF:%s\nFN:1,f\nFNDA:2,f\nDA:1,2\nDA:2,0\nend_of_record\n' "$path"
    done >files/names.info
}

@test "add, extract and remove" {
    lcov_files
    local branches=(--rc lcov_branch_coverage=1)
    like_lcov 'add three tracefiles' all.info "${branches[@]}" -a tiny.info -a both.info -a names.info -o all.info
    holds 'lcov: the records that were compared are many' [ "$(wc -l <ours.even)" -gt 80 ]
    like_lcov 'add, long options' all.info --add-tracefile tiny.info "${branches[@]}" --add-tracefile=both.info --output-file all.info
    like_lcov 'add onto one of the tracefiles' tiny.info --rc=lcov_branch_coverage=1 -a both.info -a tiny.info -o tiny.info
    like_lcov 'extract' own.info "${branches[@]}" -e both.info '*/tiny.c' '/nothing' -o own.info
    like_lcov 'extract, long options' own.info "${branches[@]}" --extract names.info '/s/?.c' --output-file own.info
    like_lcov 'extract nothing' own.info "${branches[@]}" -e both.info '/nothing' -o own.info
    like_lcov 'extract without a pattern' own.info "${branches[@]}" -e both.info -o own.info
    like_lcov 'remove onto its tracefile' both.info "${branches[@]}" -r both.info '/usr/*' '*/tiny.c' -o both.info --quiet
    like_lcov 'remove, long options' own.info "${branches[@]}" --remove both.info --output-file=own.info '/usr/*'
    like_lcov 'remove without a pattern' own.info "${branches[@]}" -r both.info -o own.info
}

@test "patterns" {
    lcov_files
    local pattern
    for pattern in '/s/[ab].c' '/s/[!a].c' '/s/!?.c' '/s/\a.c' '/s/\*' '/s/[*' '/s/]' '*[*]*' '/s/\\' '/s/{a,b}' '/s/a|b' '/s/(?)' '/s/$*' '/s/?+' '/s/^a'; do
        like_lcov "extract $pattern" own.info --extract names.info "$pattern" -o own.info
    done
    like_lcov 'remove two such patterns' own.info --remove names.info '/s/[ab].c' '*\*' -o own.info
    holds 'lcov: which removes four of the fifteen' [ "$(grep -c ^SF: ours/own.info)" -eq 11 ]
}

@test "where the stand-in differs" {
    # These are what its first lines say.
    printf 'TN:a-b\nSF:/a.c\nFN:1,f\nFNDA:1,f\nBRDA:1,0,0,1\nDA:1,18446744073709551615,lZ8bZ6bGGr4EkvEwDDpwWQ\nend_of_record\n' >d1.info
    printf 'TN:c\nSF:/a.c\nFN:3,g\nFNDA:2,g\nDA:1,1,lZ8bZ6bGGr4EkvEwDDpwWQ\nend_of_record\nTN:c\nSF:/no.c\nFN:1,h\nFNDA:0,h\nend_of_record\n' >d2.info
    printf '%s\n' TN:a-b SF:/a.c FN:1,f FNDA:2,f FNF:1 FNH:1 BRDA:1,0,0,2 BRF:1 BRH:1 \
        DA:1,36893488147419103230,lZ8bZ6bGGr4EkvEwDDpwWQ LF:1 LH:1 end_of_record \
        TN:c SF:/a.c FN:3,g FNDA:2,g FNF:1 FNH:1 DA:1,1,lZ8bZ6bGGr4EkvEwDDpwWQ LF:1 LH:1 end_of_record \
        TN:c SF:/no.c FN:1,h FNDA:0,h FNF:1 FNH:0 LF:0 LH:0 end_of_record >wanted
    call "$recipes/lcov" -a d1.info -a d1.info -a d2.info
    same wanted "$work/out" 'lcov: the records that are others than those of lcov'
    printf '%s\n' TN:a_b SF:/a.c FN:1,f FN:3,g FNDA:2,f FNF:1 FNH:1 DA:1,3.68934881474191e+19 LF:1 LH:1 end_of_record \
        TN:c SF:/a.c FN:1,f FN:3,g FNDA:2,g FNF:1 FNH:1 DA:1,1 LF:1 LH:1 end_of_record >wanted
    call lcov -a d1.info -a d1.info -a d2.info
    same wanted "$work/out" 'lcov: and those of lcov'
    # 1 of 16 lines is 6.25%.
    { echo SF:/a.c; seq 1 16 | sed 's/.*/DA:&,0/; 3s/0$/1/'; echo end_of_record; } >d3.info
    call "$recipes/lcov" --summary d3.info
    says "$work/out" 'lcov: a rate in the middle is rounded up' '  lines......: 6.3% (1 of 16 lines)'
    call lcov --summary d3.info
    says "$work/out" 'lcov: and by lcov to the even one' '  lines......: 6.2% (1 of 16 lines)'
    printf 'SF:/a.c\nDA:1,1\nend_of_record\nSF:/b.c\nDA:1,' >cut.info
    cp d1.info out.info
    ls -A >before
    call "$recipes/lcov" -a d1.info -a cut.info -o out.info
    ended 4 'lcov: a tracefile that was cut off is refused'
    says "$work/err" 'lcov: and named' 'cut.info: refused BadLine at 5'
    same d1.info out.info 'lcov: the output is as it was'
    same before <(ls -A) 'lcov: nothing half written is left'
    call lcov -a d1.info -a cut.info -o out.info
    ended 0 'lcov: where lcov says nothing of it'
}

@test "summaries and thresholds" {
    lcov_files
    local needed files=(--summary files/both.info --summary=files/tiny.info --summary files/names.info)
    for needed in 0 50 66.6 71.4 71.42 71.428571 71.428572 71.5 100; do
        call lcov --rc lcov_branch_coverage=1 "${files[@]}" --fail-under-lines "$needed"
        { grep -v ^Reading "$work/out"; echo "status $status"; } >theirs.said
        call "$recipes/lcov" --rc lcov_branch_coverage=1 "${files[@]}" --fail-under-lines "$needed"
        { cat "$work/out"; echo "status $status"; } >ours.said
        same theirs.said ours.said "lcov: the summary and the status with --fail-under-lines $needed are those of lcov 1.16"
    done
    call "$recipes/lcov" -q --summary files/names.info --rc lcov_fail_under_lines=50
    holds 'lcov: 15 of 30 lines are 50%, and -q prints nothing' [ "$status:$(cat "$work/out" "$work/err")" = 0: ]
    call "$recipes/lcov" -q --summary files/names.info --rc lcov_fail_under_lines=50.000001
    ended 1 "lcov: and aren't 50.000001%"
    : >empty.info
    call "$recipes/lcov" --summary empty.info --fail-under-lines 1
    ended 255 'lcov: an empty file, as with lcov'
}

@test "what the real lcov does" {
    lcov_files
    local words
    # What the stand-in doesn't do comes from the real lcov.
    for words in '--version' '--list files/both.info' '--summ files/both.info' '-a files/both.info -e files/both.info' '-a' '' \
        '--summary files/both.info --rc lcov_function_coverage=0' '--zerocounters --directory .'; do
        read -r -a words <<<"$words"
        call lcov "${words[@]}"
        { cat "$work/out" "$work/err"; echo "status $status"; } >theirs.said
        call "$recipes/lcov" "${words[@]}"
        { cat "$work/out" "$work/err"; echo "status $status"; } >ours.said
        same theirs.said ours.said "lcov: lcov ${words[*]} comes from the real lcov"
    done
    # A build with two copies of the stand-in before the real one.
    (cd files/c && ./tiny)
    mkdir bin again
    cp "$recipes/lcov" bin
    cp "$recipes/lcov" again
    call env PATH="$PWD/bin:$PWD/again:$PATH" bash -c \
        'set -e; lcov -q -c -d files/c -o new.info; lcov -q -a new.info -a new.info -o new.info; lcov --summary new.info'
    ended 0 'lcov: a build that captures, adds and sums up'
    says new.info 'lcov: which counts tiny.c twice' 'DA:2,6' 'FNDA:6,twice'
    call env PATH=/nothing /bin/bash "$recipes/lcov" -c -d files/c -o new.info
    ended 1 'lcov: status 1 where there is no real lcov'
    call env COVCOLLECT=/nothing "$recipes/lcov" --summary files/both.info
    ended 2 "lcov: covcollect isn't there"
    call "$recipes/lcov" -a files/nothing.info -o new.info
    ended 1 "lcov: a tracefile that isn't there"
    ln -s files/both.info link.info
    call "$recipes/lcov" -q -r files/both.info '*/half.cpp' -o link.info
    holds 'lcov: a link as the output stays one, and its file is written' [ -L link.info -a "$(grep -c half.cpp files/both.info)" -eq 0 ]
    call "$recipes/lcov" -a files/both.info -o /dev/null
    holds 'lcov: /dev/null as the output stays what it is' [ -c /dev/null ]
}
