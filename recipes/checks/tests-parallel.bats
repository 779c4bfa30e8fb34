#!/usr/bin/env bats
# tests.mk and gcov-json.awk: a tracefile for each test of a parallel run, compared with what geninfo writes of tests run one by one.
#
# need gcc gcc
# need g++ g++
# need make make
# need lcov geninfo
# need gawk gawk
# need mawk mawk
# need busybox busybox

load common
load projects
load builds

# Three tests of a library in C++, with templates, lambdas, exceptions, markers, and names that have a comma or a quote when demangled.
library() {
    mkdir -p src tests
    cat >src/lib.h <<'END'
#pragma once
#include <stdexcept>
#include <string>
int twice(int x);
int checked(int x);
template <class A, class B> struct Pair {
    A a;
    B b;
    bool operator()(char c) const {
        auto same = [c](char d) { return c == d; };
        return same(',') || same('"') || a < b;
    }
};
inline long double operator"" _deg(long double x) {
    return x * 3;
}
END
    cat >src/lib.cc <<'END'
#include "lib.h"
int twice(int x) {
    return 2 * x;
}
int checked(int x) {
    if (x < 0)
        throw std::runtime_error("below zero"); // LCOV_EXCL_LINE
    // LCOV_EXCL_START
    if (x > 1000)
        return 1000;
    // LCOV_EXCL_STOP
    if (x > 100 && x < 200) // LCOV_EXCL_BR_LINE
        return 100;
    // LCOV_EXCL_BR_START
    if (x == 70)
        return 7;
    // LCOV_EXCL_BR_STOP
    std::string text(x % 3, 'x'); // LCOV_EXCL_EXCEPTION_BR_LINE
    return text.empty() ? x : 1;
}
int left_out(int x) { // LCOV_EXCL_LINE
    return x;
}
END
    # The number of loops is the number in the test's name. In the loop, twice is called once.
    for number in 1 2 3; do
        cat >"tests/t-$number.cc" <<END
#include "../src/lib.h"
int main() {
    Pair<int, long> p{$number, 2};
    Pair<double, char> q{1.5, $number};
    int sum = 0;
    for (int i = 0; i < $number; i++)
        sum += twice(i) + p('"') + checked(i * 70);
    if ($number != 2)
        sum += q('x') + (int)(1.5_deg);
    return sum < 0;
}
END
    done
    # The tests are compiled in their own folder, so that their paths go up.
    cat >Makefile <<'END'
all: tests/t-1 tests/t-2 tests/t-3
src/lib.o: src/lib.cc src/lib.h
	g++ --coverage -O0 -c -o $@ $<
tests/%.o: tests/%.cc src/lib.h
	cd tests && g++ --coverage -O0 -c -o $*.o $*.cc
tests/%: tests/%.o src/lib.o
	g++ --coverage -o $@ $^
.SECONDARY:
END
    make -s >"$work/log" 2>&1
}
names='tests/t-1 tests/t-2 tests/t-3'
# make prints its own messages too: what tests.mk says alone.
tests() { # WORDS...
    call make -f "$recipes/tests.mk" -j 2 -O TESTS="$names" "$@"
    grep '^tests.mk: ' "$work/err" | sort >"$work/told" || true
}

of_geninfo() { # TEST FILE FOLDER...
    local test=$1 file=$2
    shift 2
    geninfo --quiet --rc lcov_branch_coverage=1 --test-name "$test" --output-filename "$file" "$@" >"$work/log" 2>&1
}
# Each section on one line, since geninfo's order of them changes from call to call.
sections() { # FILE
    awk '/^TN:/ { test = $0; next } { text = text $0 " " } $0 == "end_of_record" { print test " " text; text = "" }' "$1" | sort
}
# What each awk makes of the counts below the folders, and what geninfo makes of them.
like_geninfo() { # WHAT FOLDER...
    local what=$1 awk
    shift
    of_geninfo t theirs.info "$@"
    find "$@" -name '*.gcda' -print0 | xargs -0 gcov -b -j -t >counts.json
    sections theirs.info >theirs
    for awk in mawk gawk 'busybox awk'; do
        call $awk -v test=t -f "$recipes/gcov-json.awk" counts.json
        ended 0 "gcov-json.awk: $what, by $awk"
        sections "$work/out" >ours
        same theirs ours "gcov-json.awk: $what, by $awk: the bytes of each section are those of geninfo"
    done
}

@test 'the bytes of geninfo' {
    mkdir c
    (cd c && programs && gcc --coverage -O0 -o tiny tiny.c && g++ --coverage -O0 -o half half.cpp && ./tiny && ./half && ./half)
    like_geninfo 'tiny.c and half.cpp' c
    says "$work/out" 'gcov-json.awk: half.cpp, and by hand: each instance of a template' 'FNDA:6,_Z4halfIiET_S0_' 'FNDA:2,_Z4halfIdET_S0_'
    project p
    make -s -C p CFLAGS=--coverage LDFLAGS=--coverage check >"$work/log"
    like_geninfo 'the project of ci.sh' p
    library
    ./tests/t-1
    ./tests/t-3
    like_geninfo 'templates, lambdas, exceptions and markers' src tests
    holds 'gcov-json.awk: the library has a name with a comma, and one with a quote' \
        [ "$(grep -o '"demangled_name": "[^:]*\(, \|\\"\)' counts.json | grep -c .)" -ge 2 ]
    grep -A 100 "^SF:.*/src/lib.cc" "$work/out" | sed '/end_of_record/q' >lib
    holds 'gcov-json.awk: lines between markers are left out' [ "$(grep -cE '^DA:(7|8|9|10|21),' lib)" -eq 0 ]
    holds 'gcov-json.awk: and the function that starts at one' [ "$(grep -c left_out lib)" -eq 0 ]
    holds 'gcov-json.awk: and branches' [ "$(grep -cE '^BRDA:(12|15|18),' lib)" -eq 0 ]
    # Of t-3 checked(0), (70), (140), and of t-1 checked(0).
    says lib 'gcov-json.awk: others stay' DA:2,4 DA:6,4 DA:12,4 DA:13,1 DA:15,3 DA:16,1 DA:18,2 DA:22,0
    call awk -v markers=no -f "$recipes/gcov-json.awk" counts.json
    says "$work/out" 'gcov-json.awk: markers=no leaves nothing out' DA:7,0 DA:9,4 BRDA:12,0,0,1 FNDA:0,_Z8left_outi
    call awk -v skip='^/usr/|/src/lib[.]h$' -f "$recipes/gcov-json.awk" counts.json
    holds 'gcov-json.awk: skip' [ "$(grep ^SF: "$work/out" | sort -u | sed 's|.*/||' | tr '\n' ' ')" = 'lib.cc t-1.cc t-3.cc ' ]
}

@test 'the bytes of geninfo, of many sources' {
    many_sources .
    for source in src/*.c tests/test_{1,2,40}.c; do echo "gcc --coverage -O0 -c -o ${source%.c}.o $source"; done | xargs -P 2 -I@ sh -c @
    g++ --coverage -O0 -c -o src/unit_64.o src/unit_64.cc
    for number in 1 2 40; do
        g++ --coverage -o "test_$number" "tests/test_$number.o" src/*.o
        "./test_$number"
    done
    like_geninfo 'many sources' src tests
    holds 'gcov-json.awk: many sources: the sections are many' [ "$(wc -l <theirs)" -gt 60 ]
    says "$work/out" 'gcov-json.awk: many sources, and by hand' FNDA:1,unit_1 FNDA:2,unit_2 FNDA:1,unit_44 FNDA:0,unit_60 FNDA:3,_Z4halfIiET_S0_
    TIMEFORMAT='%U + %S s'
    theirs=$({ time of_geninfo t again.info src tests; } 2>&1)
    ours=$({ time { find src tests -name '*.gcda' -print0 | xargs -0 gcov -b -j -t | mawk -v test=t -f "$recipes/gcov-json.awk" >again.info; }; } 2>&1)
    show <<<"time   gcov-json.awk: 67 objects, processor time: geninfo $theirs, gcov and gcov-json.awk (mawk) $ours"
}

@test 'a header with two paths' {
    mkdir inc src
    printf 'static int NAME(int x) {\n    return x + 1;\n}\n' >inc/x.h
    printf '%s\n' '#define NAME one' '#include "../inc/x.h"' '#undef NAME' '#define NAME two' '#include "x.h"' \
        'int main(void) {' '    return one(1) + two(2) == 5 ? 0 : 1;' '}' >src/a.c
    gcc --coverage -O0 -I inc -c -o src/a.o src/a.c
    gcc --coverage -o a src/a.o
    ./a
    of_geninfo t theirs.info src
    # In a folder from which the two can't be seen to be one, as that of geninfo and of tests.mk.
    (cd src && gcov -b -j -t a.gcda) >counts.json
    holds 'gcov-json.awk: gcov names the header twice' [ "$(grep -o '"file": "[^"]*x.h"' counts.json | sort -u | wc -l)" -eq 2 ]
    call mawk -v test=t -f "$recipes/gcov-json.awk" counts.json
    says "$work/out" 'gcov-json.awk: both functions of a header with two paths stay' FNDA:1,one FNDA:1,two
    holds 'gcov-json.awk: of which geninfo keeps one' [ "$(grep -cE '^FNDA:1,(one|two)$' theirs.info)" -eq 1 ]
}

# The two bytes of the name in UTF-8 stay. geninfo 1.16 writes one, as in Latin-1, so a merge of both has two rows.
@test 'a path with bytes above 127' {
    mkdir src
    printf 'int main(void) {\n    return 0;\n}\n' >$'src/\303\274.c'
    gcc --coverage -c -o src/a.o $'src/\303\274.c'
    gcc --coverage -o a src/a.o
    ./a
    of_geninfo t theirs.info src
    (cd src && gcov -b -j -t a.gcda) >counts.json
    for awk in mawk gawk 'busybox awk'; do
        call $awk -v test=t -f "$recipes/gcov-json.awk" counts.json
        says "$work/out" "gcov-json.awk: a path with bytes above 127 stays, by $awk" "SF:$PWD/src/"$'\303\274.c'
    done
    says theirs.info 'gcov-json.awk: where geninfo 1.16 writes another' "SF:$PWD/src/"$'\374.c'
    "$COVCOLLECT" merge "$work/out" theirs.info >all.info
    holds 'gcov-json.awk: so one source has two rows in a merge' [ "$(grep -c ^SF: all.info)" -eq 2 ]
    holds 'gcov-json.awk: as its first lines tell' grep -q 'two rows' <(sed '/^$/q' "$recipes/gcov-json.awk")
}

@test 'documents by hand' {
    # What GCC 14 adds, text that needs a \, a count beyond 2^53, and no unexecuted_block.
    cat >hand.json <<'END'
{"files": [{"file": "a.c", "functions": [{"name": "f", "execution_count": 3, "start_line": 1, "demangled_name": "f(\"a, b\\\")"}],
  "lines": [
    {"line_number": 1, "count": 18446744073709551615, "unexecuted_block": false, "function_name": "f", "branches": [],
     "calls": [{"destination_block_id": 1, "returned": 5}],
     "conditions": [{"count": 4, "covered": 2, "not_covered_true": [1, 0], "not_covered_false": []}]},
    {"line_number": 2, "count": 0, "unexecuted_block": true, "branches": [{"count": 0, "throw": false}, {"count": 7, "throw": true}]},
    {"line_number": 3, "count": 2, "unexecuted_block": true, "branches": [{"throw": false, "count": 0}, {"count": 0}]},
    {"line_number": 3, "count": 0, "branches": [{"count": 0}]}
  ]},
  {"file": "../s//./b\\\".h", "lines": [], "functions": []}],
 "gcc_version": "14.2.0", "format_version": "2", "current_working_directory": "/top/x", "data_file": "a"}
{"current_working_directory": "/top", "files": [{"lines": [{"count": 1, "line_number": 9, "branches": []}], "functions": [], "file": "/z.c"}]}
END
    printf '%s\n' TN:u_1 SF:/top/x/a.c FN:1,f FNDA:3,f DA:1,18446744073709551615 DA:2,0 BRDA:2,0,0,- BRDA:2,0,1,- \
        DA:3,2 BRDA:3,0,0,0 BRDA:3,0,1,0 DA:3,0 BRDA:3,0,0,0 end_of_record \
        'SF:/top/s/b\".h' end_of_record TN:u_1 SF:/z.c DA:9,1 end_of_record >wanted
    printf '%s\n' SF:a.c FN:1,f FNDA:3,f DA:1,18446744073709551615 DA:2,0 BRDA:2,0,0,0 BRDA:2,0,1,7 \
        DA:3,2 BRDA:3,0,0,- BRDA:3,0,1,- DA:3,0 BRDA:3,0,0,- end_of_record \
        'SF:../s//./b\".h' end_of_record SF:/z.c DA:9,1 end_of_record >wanted.bazel
    for awk in mawk gawk 'busybox awk'; do
        call $awk -v test=u_1 -f "$recipes/gcov-json.awk" hand.json
        same wanted "$work/out" "gcov-json.awk: a document by hand, by $awk"
        says "$work/err" 'gcov-json.awk: sources that are not there are told' "gcov-json.awk: /z.c can't be read: markers in it aren't seen"
        call $awk -v like=bazel -f "$recipes/gcov-json.awk" hand.json
        same wanted.bazel "$work/out" "gcov-json.awk: as Bazel reads it, by $awk"
        holds 'gcov-json.awk: which reads no source' [ ! -s "$work/err" ]
        # Cut off anywhere, it is never taken for whole.
        for bytes in 1 2 100 400 700 1000 $(($(wc -c <hand.json) - 2)); do
            head -c "$bytes" hand.json >cut.json
            call $awk -v markers=no -f "$recipes/gcov-json.awk" cut.json
            ended 1 "gcov-json.awk: status 1 for the first $bytes bytes, by $awk"
        done
        printf 'lib.gcda: no such file\n' >page
        call $awk -f "$recipes/gcov-json.awk" page
        ended 1 "gcov-json.awk: status 1 for what isn't JSON, by $awk"
        call $awk -f "$recipes/gcov-json.awk" /dev/null
        ended 1 "gcov-json.awk: status 1 for nothing, by $awk"
        says "$work/err" 'gcov-json.awk: and why' 'gcov-json.awk: no JSON in the input: did gcov fail?'
        call $awk -v like=lcov -f "$recipes/gcov-json.awk" hand.json
        ended 2 "gcov-json.awk: status 2 for a wrong option, by $awk"
    done
}

@test 'three tests at the same time' {
    library
    for number in 1 2 3; do
        find . -name '*.gcda' -delete
        "tests/t-$number"
        of_geninfo "tests_t_$number" "theirs-$number.info" src tests
    done
    find . -name '*.gcda' -delete
    tests SKIP=
    ended 0 'tests.mk: three tests'
    printf 'tests.mk: %s\n' 'makes tests.info (tests: 3)' 'runs tests/t-1' 'runs tests/t-2' 'runs tests/t-3' >wanted
    same wanted "$work/told" 'tests.mk: says what it does'
    for number in 1 2 3; do
        sections "theirs-$number.info" >theirs
        sections "tests.info.each/tests/t-$number.info" >ours
        same theirs ours "tests.mk: the sections of t-$number are those that geninfo makes of it alone"
    done
    only 'tests.mk: leaves each test a tracefile and nothing else' tests.info.each/tests t-1.info t-2.info t-3.info
    holds 'tests.mk: no counts are left where the objects are' [ -z "$(find src tests -name '*.gcda')" ]
    "$COVCOLLECT" merge theirs-*.info >theirs
    same theirs tests.info 'tests.mk: the total is the merge of what geninfo makes'
    holds 'tests.mk: the total keeps the three names' \
        [ "$(grep '^TN:' tests.info | sort -u | tr '\n' ' ')" = 'TN:tests_t_1 TN:tests_t_2 TN:tests_t_3 ' ]
    holds 'tests.mk: and counts what each did' \
        [ "$(grep '^FNDA:.*twice' tests.info | sort | tr '\n' ' ')" = 'FNDA:1,_Z5twicei FNDA:2,_Z5twicei FNDA:3,_Z5twicei ' ]
    tests
    holds "tests.mk: by default the system's headers are left out" \
        [ "$(grep -c '^SF:/usr/' theirs) $(grep -c '^SF:/usr/' tests.info)" = '6 0' ]
}

@test 'what changed is run again' {
    library
    cp "$(command -v gcov)" gcov-of-mine
    echo 1 >data
    tests USES=data
    again() { # WHAT TOLD...
        local what=$1
        shift
        ended 0 "tests.mk: $what"
        printf 'tests.mk: %s\n' "$@" | grep -v ': $' | sort >wanted || true
        same wanted "$work/told" "tests.mk: $what: what is run"
    }
    tests USES=data
    again 'nothing changed' ''
    sed 's/^    int sum = 0/    int sum = twice(1)/' tests/t-2.cc >new
    mv new tests/t-2.cc
    make -s >"$work/log" 2>&1
    tests USES=data
    again 'a changed test' 'runs tests/t-2' 'makes tests.info (tests: 3)'
    holds 'tests.mk: a changed test: its new count is in the total' \
        [ "$(grep '^FNDA:.*twice' tests.info | sort | tr '\n' ' ')" = 'FNDA:1,_Z5twicei FNDA:3,_Z5twicei FNDA:3,_Z5twicei ' ]
    sleep 0.1
    echo 2 >data
    tests USES=data
    again 'a file that all use' 'runs tests/t-1' 'runs tests/t-2' 'runs tests/t-3' 'makes tests.info (tests: 3)'
    tests USES=data GCOV="$PWD/gcov-of-mine"
    again 'another gcov' 'runs tests/t-1' 'runs tests/t-2' 'runs tests/t-3' 'makes tests.info (tests: 3)'
    names='tests/t-1 tests/t-3' tests USES=data GCOV="$PWD/gcov-of-mine"
    again 'a test that vanished' 'makes tests.info (tests: 2)'
    holds 'tests.mk: a test that vanished is not in the total' [ "$(grep -c TN:tests_t_2 tests.info)" -eq 0 ]
    tests USES=data GCOV="$PWD/gcov-of-mine"
    again 'a test that came back' 'makes tests.info (tests: 3)'
}

@test 'what goes wrong' {
    library
    tests
    ended 0 'tests.mk: before something goes wrong'
    cp tests.info before.info
    cp tests/t-2 whole
    kept() { # WHAT MESSAGE
        ended 2 "tests.mk: $1: make fails"
        says "$work/err" "tests.mk: $1: and why" "$2"
        same before.info tests.info "tests.mk: $1: the total is as it was"
        holds "tests.mk: $1: nothing half written is left" [ -z "$(find . -name '*.new')" ]
    }
    printf '#!/bin/sh\nexit 7\n' >tests/t-2
    touch tests/t-3
    tests -k
    kept 'a test that fails' 'tests.mk: tests/t-2 failed, status 7'
    says "$work/told" 'tests.mk: a test that fails: with -k the others run' 'tests.mk: runs tests/t-3'
    tests RUN='timeout 0.1' SKIP='^/usr/'
    kept 'a test that fails, run by another program' 'tests.mk: tests/t-2 failed, status 7'
    printf '#!/bin/sh\nexit 0\n' >tests/t-2
    tests
    kept 'a test without counts' 'tests.mk: tests/t-2 left no counts: was it built with --coverage?'
    cp whole tests/t-2
    mv src/lib.gcno lib.gcno
    tests
    kept 'no .gcno' "tests.mk: tests/t-2: $PWD/src/lib.gcno isn't there"
    # That of another compilation.
    sed 's/return 100;/return 10 + x;/' src/lib.cc >src/other.cc
    g++ --coverage -O0 -c -o src/other.o src/other.cc
    mv src/other.gcno src/lib.gcno
    tests
    kept "another compilation's .gcno" 'tests.mk: tests/t-2: gcov failed'
    holds "tests.mk: another compilation's .gcno: gcov's message is shown" \
        grep -q 'src/lib.gcda:stamp mismatch with notes file$' "$work/err"
    mv lib.gcno src/lib.gcno
    # gcov 12 ends with status 0 where it says this, of a .gcda that was cut off.
    printf '#!/bin/sh\necho "lib.gcda:profile mismatch for f" >&2\nexec gcov "$@"\n' >gcov-in-doubt
    chmod +x gcov-in-doubt
    tests GCOV="$PWD/gcov-in-doubt"
    kept 'gcov is in doubt' 'tests.mk: tests/t-2: gcov is in doubt, see above'
    tests GCOV=false
    kept 'gcov fails' 'tests.mk: tests/t-2: gcov failed'
    tests AWK='awk -v like=nothing'
    kept 'awk fails' 'gcov-json.awk: like is bazel, or isn'"'"'t given'
    tests COVCOLLECT=false
    ended 2 'tests.mk: the merge fails: make fails'
    same before.info tests.info 'tests.mk: the merge fails: the total is as it was'
    tests
    ended 0 'tests.mk: all is well again'
    same before.info tests.info 'tests.mk: and the total is that of before'

    wrong() { # WHAT MESSAGE WORDS...
        local what=$1 message=$2
        shift 2
        call make -f "$recipes/tests.mk" "$@"
        ended 2 "tests.mk: $what"
        holds "tests.mk: $what, and why" grep -qF "$message" "$work/err"
    }
    wrong 'no TESTS' "TESTS isn't given"
    wrong 'a path that goes up' "TESTS has paths that aren't below this folder, or begin with ./: ../t" TESTS='../t tests/t-1'
    wrong 'a whole path' "TESTS has paths that aren't below this folder, or begin with ./: /t" TESTS='/t tests/t-1'
    wrong 'two tests of one name' 'two tests have the same name: tests_t_1' TESTS='tests/t-1 tests/t_1'
    wrong "a test that isn't there" 'tests/none' TESTS=tests/none
    cp "$recipes/tests.mk" alone.mk
    call make -f alone.mk TESTS="$names"
    ended 2 'tests.mk: without gcov-json.awk'
    holds 'tests.mk: without gcov-json.awk, and why' grep -qF "$PWD/gcov-json.awk isn't there: copy it beside tests.mk" "$work/err"
}
