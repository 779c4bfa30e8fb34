#!/usr/bin/env bats
# gcov-excl.awk, by three awks: what it leaves of gcov's text is what geninfo 1.16 leaves of the same program.
#
# need gcc gcc
# need g++ g++
# need lcov geninfo
# need gawk gawk
# need mawk mawk
# need busybox busybox

load common

# The records of a tracefile. gcov's text numbers calls with the branches, so branches are told by their order.
even() { # FILE
    awk -F '[:,]' '/^BRDA:/ { print "BRDA:" $2 "," n[$2]++ "," $5; next } /^(SF|FN|FNDA|DA):/' "$1" | sed "s,^SF:$PWD/,SF:," | sort
}
# Counts the program in this folder by geninfo, and by gcov, filter and covcollect.
compare() { # WHAT SOURCE
    local awk
    quietly geninfo --no-external --rc lcov_branch_coverage=1 --test-name u --output-filename geninfo.info .
    even geninfo.info >theirs
    quietly gcov -b -c ./*.gcda
    "$COVCOLLECT" gcov --test u "$2.gcov" >raw.info
    even raw.info >raw
    holds "gcov-excl.awk: $1, without it the counts are others" [ -s raw -a -n "$(comm -3 raw theirs)" ]
    for awk in gawk mawk 'busybox awk'; do
        # shellcheck disable=SC2086 # busybox awk is two words
        call $awk -f "$recipes/gcov-excl.awk" "$2.gcov"
        ended 0 "gcov-excl.awk: $1, by $awk"
        holds "gcov-excl.awk: $1, nothing on standard error, by $awk" [ ! -s "$work/err" ]
        cp "$work/out" left.gcov
        call "$COVCOLLECT" gcov --test u left.gcov
        cp "$work/out" left.info
        even left.info >ours
        same theirs ours "gcov-excl.awk: $1, lines, functions and branches are those of geninfo 1.16, by $awk"
    done
}

@test "a C program" {
    cat >m.c <<'SOURCE'
#include <stdio.h>
#include <stdlib.h>

int used(int x) {
    return x > 2 ? x * 2 : x;
}

int skipped(int x) { /* LCOV_EXCL_LINE */
    return x > 1;
}

int bare(int x) {
    if (x)      /* LCOV_EXCL_BR_LINE */
        abort();                   /* LCOV_EXCL_LINE */
    if (x > 3)
        return 7;
    return 0;
}

/* LCOV_EXCL_START */
int hidden(int x) {
    if (x)
        return 1;
    return 2;
}
int stops(int x) { return x ? 3 : 4; } /* LCOV_EXCL_STOP */

/* LCOV_EXCL_BR_START */
int plain(int x) {
    if (x > 5)
        x++;
    return x;
}
int last(int x) { return x ? 1 : 0; } /* LCOV_EXCL_BR_STOP */

int main(int argc, char **argv) {
    int sum = 0;
    for (int i = 0; i < 4; i++)
        sum += used(i) + plain(i) + last(i) + stops(i);
    if (argc > 4) { printf("%s\n", argv[1]); sum += hidden(argc); } /* LCOV_EXCL_STOP LCOV_EXCL_START LCOV_EXCL_LINE */
    return sum ? bare(0) : skipped(1);
}
SOURCE
    gcc --coverage -O0 -o m m.c && ./m
    compare 'a C program' m.c
    # By hand: of used, skipped, bare, hidden, stops, plain, last and main, two start in lines that are left out.
    holds 'gcov-excl.awk: six functions are left' [ "$(grep -c ^FN: ours)" -eq 6 ]
    holds 'gcov-excl.awk: and none of those left out' [ -z "$(grep -E 'skipped|hidden' ours)" ]
}

@test "a C++ program" {
    cat >t.cpp <<'SOURCE'
#include <string>
#include <stdexcept>

static std::string name(int x) {
    std::string text = std::to_string(x); // LCOV_EXCL_BR_LINE
    if (x > 3)
        throw std::runtime_error("large: " + text); // LCOV_EXCL_LINE
    return text + "!";
}

// LCOV_EXCL_BR_START
static std::string both(int x) {
    return name(x) + name(x > 1 ? 1 : 2);
}
// LCOV_EXCL_BR_STOP

int main() {
    std::string all;
    for (int i = 0; i < 3; i++)
        all += both(i);
    try { name(9); } catch (const std::exception &) { all += "?"; }
    return all.size() == 0;
}
SOURCE
    g++ --coverage -O0 -o t t.cpp && ./t
    compare 'a C++ program' t.cpp
}

# By hand, in the form that gcov -b -c -t writes: two sources, the first with a START that has no STOP.
@test "two sources, exceptions" {
    local awk
    cat >both.gcov <<'TEXT'
        -:    0:Source:/s/LCOV_EXCL_START.cpp
        -:    0:Graph:a.gcno
function f called 3 returned 100% blocks executed 80%
        3:    1:int f() { // LCOV_EXCL_EXCEPTION_BR_LINE
call    0 returned 3
branch  1 taken 3 (fallthrough)
branch  2 taken 0 (throw)
       2*:    2:    g(); // LCOV_EXCL_BR_LINE
branch  0 taken 1 (fallthrough)
branch  1 taken 1
    #####:    3:    h();
branch  0 never executed
        -:    4:// LCOV_EXCL_EXCEPTION_BR_START
        3:    5:    i();
branch  0 taken 0 (throw)
branch  1 taken 3
        -:    6:// LCOV_EXCL_EXCEPTION_BR_STOP LCOV_EXCL_START
function k called 1 returned 100% blocks executed 100%
    =====:    7:void k() {}
branch  0 taken 3
        -:    0:Source:/s/b.cpp
function l called 4 returned 100% blocks executed 100%
        4:    1:void l() {}
branch  0 taken 4
TEXT
    # k starts at a line that is left out, l doesn't. Branch 1 of line 1 and that of line 5 are taken by no exception.
    cat >wanted <<'TEXT'
TN:u
SF:/s/LCOV_EXCL_START.cpp
FN:1,f
FNDA:3,f
FNF:1
FNH:1
BRDA:1,0,1,3
BRDA:3,0,0,-
BRDA:5,0,1,3
BRF:3
BRH:2
DA:1,3
DA:2,2
DA:3,0
DA:5,3
LF:4
LH:3
end_of_record
TN:u
SF:/s/b.cpp
FN:1,l
FNDA:4,l
FNF:1
FNH:1
BRDA:1,0,0,4
BRF:1
BRH:1
DA:1,4
LF:1
LH:1
end_of_record
TEXT
    for awk in gawk mawk 'busybox awk'; do
        # shellcheck disable=SC2086 # busybox awk is two words
        call $awk -f "$recipes/gcov-excl.awk" both.gcov
        ended 0 "gcov-excl.awk: two sources, by $awk"
        says "$work/err" "gcov-excl.awk: a START without a STOP is told, by $awk" \
            'gcov-excl.awk: /s/LCOV_EXCL_START.cpp: an LCOV_EXCL START has no STOP'
        cp "$work/out" left.gcov
        call "$COVCOLLECT" gcov --test u left.gcov
        same wanted "$work/out" "gcov-excl.awk: what was worked out by hand is left, by $awk"
        holds "gcov-excl.awk: no line of source is lost, by $awk" [ "$(grep -c '^ .*:' left.gcov)" -eq "$(grep -c '^ .*:' both.gcov)" ]
        call $awk -f "$recipes/gcov-excl.awk" nothing.gcov
        holds "gcov-excl.awk: a file that isn't there is no success, by $awk" [ "$status" -ne 0 ]
    done
}
