#!/usr/bin/env bats
# Tracefiles and merges above 64 MiB in each recipe: it gives the program --large, where the program has it.
#
# need gcc gcc
# need git git
# need lcov lcov
# need make make

load common
load projects

# Three tracefiles of 51 MB each, so that a merge of two is above 64 MiB. Each has 500 sources, of a line and 50 functions with names of
# 1,000 bytes, all of them hit; the first one also has a header of the system with a line that isn't.
setup_file() {
    local number
    cd "$BATS_FILE_TMPDIR" || return
    for number in 1 2 3; do
        awk -v from="${number}000" 'BEGIN {
            for (line = 100; line < 150; line++) {
                name = sprintf("%d_%0996d", line, 0)
                starts = starts "FN:" line "," name "\n"
                counts = counts "FNDA:1," name "\n"
            }
            for (source = 1; source <= 500; source++)
                printf "TN:t\nSF:/projects/library/%d.c\n%s%sFNF:50\nFNH:50\nDA:100,1\nLF:1\nLH:1\nend_of_record\n", from + source, starts, counts
        }' >"$number.info"
    done
    cat 1.info 2.info 3.info >own.wanted
    printf 'TN:t\nSF:/usr/include/x.h\nDA:1,0\nLF:1\nLH:0\nend_of_record\n' | tee -a 1.info | cat own.wanted - >all.wanted
}
bring() { ln -s "$BATS_FILE_TMPDIR"/{1,2,3}.info "$BATS_FILE_TMPDIR"/{own,all}.wanted .; }
# A program without --large, by which a recipe does what it did.
old_way() {
    old_program old
    export COVCOLLECT=$PWD/old
}

@test "ci.sh" {
    bring
    for words in '' '--empty skip'; do
        # shellcheck disable=SC2086 # two words, or none
        call "$recipes/ci.sh" --merge-only --no-html $words --lines 100 1.info 2.info 3.info
        ended 0 "ci.sh --merge-only $words: three files of 51 MB"
        holds "ci.sh --merge-only $words: all.info has all" cmp -s coverage/all.info all.wanted
        holds "ci.sh --merge-only $words: own.info lacks the header" cmp -s coverage/own.info own.wanted
        says "$work/out" "ci.sh --merge-only $words: the summary" '  lines......: 100.0% (1500 of 1500 lines)'
    done
    cat 1.info 2.info >four.info
    call "$recipes/ci.sh" --merge-only --no-html four.info 3.info
    ended 0 'ci.sh --merge-only: a file of 102 MB'
    holds 'ci.sh --merge-only: with all that it has' cmp -s coverage/all.info all.wanted
}

@test "the stand-in for lcov" {
    bring
    call "$recipes/lcov" -a 1.info -a 2.info -a 3.info -o all.info
    ended 0 'lcov: -a of three files of 51 MB'
    holds 'lcov: -a has all' cmp -s all.info all.wanted
    says "$work/out" 'lcov: -a prints the summary' '  lines......: 99.9% (1500 of 1501 lines)'
    call "$recipes/lcov" --summary all.info --fail-under-lines 99
    ended 0 'lcov: --summary of 153 MB'
    says "$work/out" 'lcov: --summary prints it, too' '  lines......: 99.9% (1500 of 1501 lines)'
    call "$recipes/lcov" -r all.info '/usr/*' -o own.info
    ended 0 'lcov: -r of 153 MB'
    holds 'lcov: -r leaves the others' cmp -s own.info own.wanted
    says "$work/out" 'lcov: -r prints the summary' '  lines......: 100.0% (1500 of 1500 lines)'
    call "$recipes/lcov" -e all.info '/projects/*' -o own.info
    ended 0 'lcov: -e of 153 MB'
    holds 'lcov: -e keeps the others' cmp -s own.info own.wanted
    old_way
    call "$recipes/lcov" --summary all.info
    ended 4 'lcov: a covcollect without --large refuses it'
    says "$work/err" 'lcov: as it says' 'all.info: refused TooLong'
}

@test "farm.mk" {
    bring
    mkdir -p machines/m1 machines/m2
    cp -L 1.info 2.info machines/m1
    cat 3.info >machines/m2/3.info
    call make -f "$recipes/farm.mk" -j 2
    ended 0 'farm.mk: a share of 102 MB'
    holds 'farm.mk: the total has all' cmp -s farm.info all.wanted
    cat 1.info 2.info >machines/m1/1.info
    rm machines/m1/2.info
    call make -f "$recipes/farm.mk" -j 2 CHECK=fail
    ended 0 'farm.mk: CHECK=fail, a tracefile of 102 MB'
    holds 'farm.mk: CHECK=fail: the total has all' cmp -s farm.info all.wanted
    call make -f "$recipes/farm.mk" -j 2 CHECK=skip
    ended 0 'farm.mk: CHECK=skip, a tracefile of 102 MB'
    holds 'farm.mk: CHECK=skip: the total has all' cmp -s farm.info all.wanted
    old_way
    call make -f "$recipes/farm.mk"
    ended 2 'farm.mk: a covcollect without --large refuses it'
    says "$work/err" 'farm.mk: as it says' 'machines/m1/1.info: refused TooLong'
}

# The jobs of merge-farm, without Slurm.
@test "the jobs of merge-farm" {
    local check
    bring
    cat 1.info 2.info >four.info
    mkdir work
    cp "$recipes/intake" work
    printf '%s\0' "$PWD/four.info" >work/share.000000.list
    printf '%s\0' "$PWD/3.info" >work/share.000001.list
    for check in no fail; do
        rm -f work/share.*.info all.info
        call env SLURM_ARRAY_TASK_ID=0 bash "$recipes/slurm/share.sbatch" "$PWD/work" "$COVCOLLECT" $check
        ended 0 "share.sbatch: a tracefile of 102 MB, check $check"
        call env SLURM_ARRAY_TASK_ID=1 bash "$recipes/slurm/share.sbatch" "$PWD/work" "$COVCOLLECT" $check
        call bash "$recipes/slurm/total.sbatch" "$PWD/work" "$COVCOLLECT" "$PWD/all.info" 2 keep
        ended 0 'total.sbatch: a share of 102 MB'
        holds 'total.sbatch: the total has all' cmp -s all.info all.wanted
    done
}

@test "changed-lines" {
    bring
    cat 1.info 2.info >four.info
    git init -q r
    git -C r -c user.name=check -c user.email=check@example.org commit -q --allow-empty -m first
    seq 1 250 >r/1001.c
    git -C r add 1001.c
    # By hand: line 100 counts, and is run.
    call env -C r "$recipes/changed-lines" --prefix /projects/library --lines 100 HEAD ../four.info
    ended 0 'changed-lines: a tracefile of 102 MB'
    says "$work/err" 'changed-lines: is read' 'changed-lines: 1 of 1 changed lines are run'
}

@test "Bazel's merger" {
    bring
    cat 1.info 2.info >four.info
    printf '%s\n' four.info 3.info >list
    call "$recipes/bazel/covcollect-bazel" --reports_file=list --output_file=all.info
    ended 0 'covcollect-bazel: a report of 102 MB'
    holds 'covcollect-bazel: the total has all' cmp -s all.info all.wanted
    mkdir dir
    cp four.info dir/a.dat
    call "$recipes/bazel/covcollect-bazel" --coverage_dir=dir --output_file=own.info --filter_sources='/usr/.*'
    ended 0 "covcollect-bazel: a test's counts of 102 MB"
    holds 'covcollect-bazel: are kept' [ "$(grep -c ^SF: own.info)" -eq 1000 ]
}

# What gcov says of a test is made up: two sources of 350 functions with names of 65,000 bytes, so a tracefile of 90 MB.
@test "tests.mk" {
    mkdir tests
    printf 'int main(void) {\n    return 0;\n}\n' >tests/t.c
    (cd tests && gcc --coverage -O0 -c -o t.o t.c && gcc --coverage -o t t.o)
    cat >gcov-of-many <<'GCOV'
#!/bin/bash
awk 'BEGIN {
    for (name = "0"; length(name) < 50000; name = name name) {}
    printf "{\"current_working_directory\": \"/top\", \"files\": ["
    for (source = 1; source <= 2; source++) {
        printf "%s{\"file\": \"%d.c\", \"lines\": [], \"functions\": [", (source > 1 ? ", " : ""), source
        for (line = 1; line <= 350; line++) {
            printf "%s{\"name\": \"f%d_", (line > 1 ? ", " : ""), line
            print name "\", \"start_line\": " line ", \"execution_count\": 3}"
        }
        printf "]}"
    }
    print "]}"
}'
GCOV
    chmod +x gcov-of-many
    call make -f "$recipes/tests.mk" TESTS=tests/t GCOV="$PWD/gcov-of-many" COVCOLLECT="$COVCOLLECT"
    ended 0 'tests.mk: a tracefile of 90 MB'
    holds 'tests.mk: which is that large' [ "$(stat -c %s tests.info.each/tests/t.info)" -gt 67108864 ]
    holds 'tests.mk: is in the total' [ "$(grep -c '^FNDA:3,f' tests.info)" -eq 700 ]
}
