#!/usr/bin/env bats
# --lcov2, on what LCOV 1.16, two releases of LCOV 2, three of coverage.py and llvm-cov write, and by hand. Beside it stand the filter
# lcov2.awk, and the totals that the tools themselves print.
#
# need gcc gcc
# need g++ g++
# need lcov geninfo
# need clang clang
# need llvm llvm-cov
# need python3-coverage python3-coverage
# need libcapture-tiny-perl perl -MCapture::Tiny -e 1
# need libdatetime-perl perl -MDateTime -e 1
# need libtimedate-perl perl -MDate::Parse -e 1

load common
load projects
load releases

# Once for all scenarios: a folder for each package and release that can be fetched, and a file with its version.
setup_file() {
    trap 'exit 130' INT
    trap 'exit 143' TERM
    local release package deb
    for release in trixie forky; do
        for package in lcov python3-coverage; do
            if deb=$(fetch $release $package "$BATS_FILE_TMPDIR/$package.$release"); then
                version_of $package "$deb" >"$BATS_FILE_TMPDIR/$package.$release.version"
            fi
        done
    done
}
# The releases of which the package is there. Each that isn't is told.
releases() { # PACKAGE WHAT: sets $found
    local release
    found=()
    for release in trixie forky; do
        if [ -e "$BATS_FILE_TMPDIR/$1.$release.version" ]; then
            found+=("$release")
        else
            not_tried "$2 of Debian $release can't be fetched here"
        fi
    done
}

# Sources with templates, exceptions, virtual functions and a lambda, and C. The program is run with two numbers.
many_shapes() { # FOLDER
    mkdir "$1"
    cat >"$1/shapes.h" <<'END'
#include <stdexcept>
#include <string>
#include <vector>
template <class T> T at_most(T x, T most) {
    if (x > most || x < 0)
        throw std::out_of_range("not there");
    return x;
}
class Shape {
public:
    virtual ~Shape() {}
    virtual int area() const = 0;
};
END
    cat >"$1/shapes.cpp" <<'END'
#include "shapes.h"
class Square : public Shape {
    int side;

public:
    explicit Square(int s) : side(at_most(s, 9)) {}
    ~Square() override {}
    int area() const override { return side * side; }
};
static std::string name_of(int n) {
    switch (n) {
    case 0:
        return "none";
    case 1:
        return "one";
    default:
        return n < 5 ? "few" : "many";
    }
}
int shapes(int n) {
    std::vector<Shape *> all;
    for (int i = 0; i < n; i++)
        all.push_back(new Square(i));
    int sum = 0;
    auto add = [&sum](const Shape &s) { sum += s.area() > 3 ? s.area() : 1; };
    for (auto s : all) {
        add(*s);
        delete s;
    }
    return sum + (int)name_of(n).size() + (int)at_most(n + 0.5, 20.0);
}
END
    cat >"$1/main.cpp" <<'END'
#include "shapes.h"
#include <cstdlib>
extern "C" int twice(int);
int shapes(int n);
int main(int argc, char **argv) {
    int n = argc > 1 ? std::atoi(argv[1]) : 0;
    try {
        return shapes(twice(at_most(n, 7))) < 0 && at_most(1L, 2L);
    } catch (const std::out_of_range &) {
        return 0;
    }
}
END
    printf '%s\n' 'int twice(int x) {' '    int y = x > 2 && x < 6 ? x : 2;' '    return x ? x + y : 0;' '}' \
        'int never(int x) {' '    return x;' '}' >"$1/twice.c"
    (cd "$1" && gcc --coverage -O0 -c twice.c && g++ --coverage -O0 -c shapes.cpp main.cpp &&
        g++ --coverage -o prog twice.o shapes.o main.o)
}
# The second run, of the test u, ends by an exception.
run_shapes() { # FOLDER TEST
    rm -f "$1"/*.gcda
    case $2 in
        t) (cd "$1" && ./prog 3 && ./prog 0) ;;
        u) (cd "$1" && ./prog 5 && ./prog 9) ;;
    esac
}
# The files of both tests by LCOV 1.16 and by each LCOV 2 that is there: one.t, one.u, trixie.t ..
capture() { # OPTION-FOR-LCOV-2...
    local test release
    many_shapes c
    for test in t u; do
        run_shapes c $test
        geninfo --quiet --rc lcov_branch_coverage=1 --test-name $test --output-filename one.$test c >"$work/log" 2>&1
        for release in "${found[@]}"; do
            lcov_of "$BATS_FILE_TMPDIR/lcov.$release" geninfo --quiet --rc branch_coverage=1 --test-name $test "$@" \
                --output-filename "$release.$test" c >"$work/log" 2>&1 || { show "$work/log"; return 1; }
        done
    done
}

# The numbers of a summary, of any of these tools: lines, functions, branches.
totals() { # FILE
    sed -nE 's/^ *(lines|functions|branches)\.*: .*\(([0-9]+) of ([0-9]+) .*/\1 \2 of \3/p' "$1"
}
# The totals of files by the option, and by the tool that wrote them: its output is in the file.
same_totals() { # WHAT TOOL-OUTPUT FILE...
    local what=$1
    totals "$2" >"$work/tool.totals"
    shift 2
    call "$COVCOLLECT" summary --lcov2 "$@"
    totals "$work/out" >"$work/our.totals"
    holds "--lcov2: $what: the tool told of something" [ -s "$work/tool.totals" ]
    same "$work/tool.totals" "$work/our.totals" "--lcov2: $what"
}
# The files by the option, and by filter and merge. What both print is left in $work/read.
same_by_filter() { # WHAT FILE...
    local what=$1 file plain=()
    shift
    for file in "$@"; do
        plain+=("$file.plain")
        awk -f "$recipes/lcov2.awk" "$file" >"$file.plain" || { verdict 1 "--lcov2: $what: the filter takes $file"; return 0; }
    done
    "$COVCOLLECT" merge "${plain[@]}" >"$work/wanted"
    call "$COVCOLLECT" merge --lcov2 "$@"
    ended 0 "--lcov2: $what is read"
    cp "$work/out" "$work/read"
    same "$work/wanted" "$work/read" "--lcov2: $what: the bytes of filter and merge"
}
checked() { # WHAT FILE...: no line is odd, and none unknown
    local what=$1
    shift
    call "$COVCOLLECT" check --lcov2 "$@"
    ended 0 "--lcov2: $what: check"
    holds "--lcov2: $what: no odd line, and none that isn't known" \
        [ "$(grep -cE ': sections [0-9]+ items [0-9]+ odd 0 skipped 0$' "$work/out")" -eq $# ]
}

@test "C and C++ by LCOV 1.16 and LCOV 2" {
    local found release version files lcov
    releases lcov 'LCOV 2'
    capture --comment 'made by hand, with a comment'
    call "$COVCOLLECT" merge one.t one.u
    cp "$work/out" one.all
    "$COVCOLLECT" extract one.all "$PWD/c/*" >one.own
    holds '--lcov2: the records of the sources are many' [ "$(wc -l <one.own)" -gt 150 ]
    same_by_filter 'files of LCOV 1.16' one.t one.u
    same one.all "$work/read" '--lcov2: files of LCOV 1.16: the bytes of merge without the option'
    checked 'files of LCOV 1.16' one.t one.u
    lcov --quiet --rc lcov_branch_coverage=1 -a one.t -a one.u -o one.total >"$work/log" 2>&1
    lcov --rc lcov_branch_coverage=1 --summary one.total >"$work/said" 2>&1
    same_totals 'the totals of LCOV 1.16' "$work/said" one.t one.u
    for release in "${found[@]}"; do
        lcov=$BATS_FILE_TMPDIR/lcov.$release
        version="LCOV $(cat "$lcov.version")"
        files=("$release.t" "$release.u")
        holds "--lcov2: $version: its files have indexes, marks and comments" \
            [ "$(grep -hoE '^(FNL|FNA|BRDA:[0-9]*,e|#)' "${files[@]}" | sort -u | sed 's/:.*,/:/' | sort -u | tr '\n' ' ')" = '# BRDA:e FNA FNL ' ]
        same_by_filter "files of $version" "${files[@]}"
        "$COVCOLLECT" extract "$work/read" "$PWD/c/*" >two.own
        same one.own two.own "--lcov2: $version and 1.16 say the same of the sources, byte for byte"
        checked "files of $version" "${files[@]}"
        # Each file by itself. LCOV 2.5 counts the branches of two tests together wrongly, and stops at what it wrote of them.
        for file in "${files[@]}"; do
            lcov_of "$lcov" lcov --rc branch_coverage=1 --summary "$file" >"$work/said" 2>&1 || true
            same_totals "$version: the totals of its summary of $file" "$work/said" "$file"
            "$COVCOLLECT" merge --lcov2 "$file" >printed.info
            lcov_of "$lcov" lcov --rc branch_coverage=1 --summary printed.info >"$work/said" 2>&1 || true
            same_totals "$version: it reads what is printed of $file, with these totals" "$work/said" "$file"
        done
        # All tests together, which LCOV 2.5 reads only without their names.
        "$COVCOLLECT" merge --lcov2 "${files[@]}" | sed '/^TN:/d' >nameless.info
        "$COVCOLLECT" merge nameless.info >printed.info
        lcov_of "$lcov" lcov --rc branch_coverage=1 --summary printed.info >"$work/said" 2>&1 || true
        same_totals "$version: it reads a merge without names, with these totals" "$work/said" "${files[@]}"
        "$COVCOLLECT" extract printed.info "$PWD/c/*" >own.info
        call lcov_of "$lcov" genhtml --quiet --rc branch_coverage=1 --branch-coverage --output-directory html.$release own.info
        ended 0 "--lcov2: $version: genhtml makes a page of it"
        holds "--lcov2: $version: with the source" grep -rq 'at_most' html.$release --include='*.gcov.html'
        # One file alone: filters.
        for file in extract remove; do
            "$COVCOLLECT" $file "$release.t.plain" "$PWD/c/*" '*/bits/*' >"$work/wanted"
            call "$COVCOLLECT" $file --lcov2 "$release.t" "$PWD/c/*" '*/bits/*'
            same "$work/wanted" "$work/out" "--lcov2: $version: $file"
        done
        # Both versions in one call, by several jobs.
        "$COVCOLLECT" merge one.t "$release.u.plain" >"$work/wanted"
        for file in '-j 2' '--jobs 64' '-j1' '--jobs=3'; do
            # shellcheck disable=SC2086 # an option and its value
            call "$COVCOLLECT" merge $file --lcov2 one.t "$release.u"
            same "$work/wanted" "$work/out" "--lcov2: $version and 1.16 in one call, $file"
        done
        call "$COVCOLLECT" summary -j 2 --lcov2 "${files[@]}"
        cp "$work/out" "$work/two"
        call "$COVCOLLECT" summary --lcov2 "${files[@]}"
        same "$work/two" "$work/out" "--lcov2: $version: the summary with -j 2"
        # What it was without the option.
        call "$COVCOLLECT" merge "$release.t"
        ended 4 "--lcov2: $version: without the option its branches are refused"
        grep -v '^BRDA' "$release.t" >lines.new
        call "$COVCOLLECT" summary lines.new
        says "$work/out" "--lcov2: $version: without the option it has no functions" '  functions..: no data found'
    done
    if [[ " ${found[*]} " == *' trixie '* ]]; then
        lcov=$BATS_FILE_TMPDIR/lcov.trixie
        lcov_of "$lcov" lcov --quiet --rc branch_coverage=1 -a trixie.t -a trixie.u -o trixie.total >"$work/log" 2>&1
        lcov_of "$lcov" lcov --rc branch_coverage=1 --summary trixie.total >"$work/said" 2>&1
        same_totals "LCOV $(cat "$lcov.version"): the totals of its merge" "$work/said" trixie.t trixie.u
        same_totals "LCOV $(cat "$lcov.version"): the totals of its merge, read by the option" "$work/said" trixie.total
        "$COVCOLLECT" merge --lcov2 trixie.t trixie.u >printed.info
        lcov_of "$lcov" lcov --rc branch_coverage=1 --summary printed.info >"$work/said" 2>&1
        same_totals "LCOV $(cat "$lcov.version"): it reads a merge with names, with these totals" "$work/said" trixie.t trixie.u
    fi
}

# outer's lambda and inner's local class are never called: their lines, and the blocks round them, aren't run, and all behind them is.
# By hand: of five functions outer, inner and main are called.
never_called() { # FOLDER
    project "$1"
    rm "$1"/src/*
    cat >"$1/src/never.cpp" <<'END'
int outer(int x)
{
    if (x > 100) {
        auto never = [&](int y) {
            return x + y;
        };
        x = never(x);
    }
    return x;
}
int inner(int x)
{
    if (x > 100) {
        struct Local {
            int twice(int y) {
                return 2 * y;
            }
        };
        return Local().twice(x);
    }
    return x;
}
int main()
{
    return outer(1) + inner(1) == 2 ? 0 : 1;
}
END
    printf 'test: src/never.cpp\n\tg++ --coverage -O0 -o $@ $<\ncheck: test\n\t./test\n' >"$1/Makefile"
}

@test "a lambda and a local class that are never called" {
    local found release version lcov words
    releases lcov 'LCOV 2'
    # README's quick start, on the files of the folder jobs.
    quick_start | sed 's/80/40/' >script
    holds 'README: its script has two commands' [ "$(sed 's/ -.*//' script | tr '\n' ,)" = 'covcollect combine,covcollect html,' ]
    mkdir tools
    ln -s "$COVCOLLECT" tools/covcollect
    for release in "${found[@]}"; do
        lcov=$BATS_FILE_TMPDIR/lcov.$release
        version="LCOV $(cat "$lcov.version")"
        never_called $release
        call env -C $release PERL5LIB="$lcov/usr/share/perl5" PATH="$lcov/usr/bin:$PATH" ci/ci.sh --lines 40
        ended 0 "ci.sh: $version, with functions that are never called"
        says "$work/out" "ci.sh: $version: the summary as worked out by hand" '  functions..: 60.0% (3 of 5 functions)'
        holds "ci.sh: $version: genhtml made a page of the source" grep -rq 'auto never' $release/coverage/html --include='never.cpp.gcov.html'
        mkdir $release/jobs
        lcov_of "$lcov" geninfo --quiet --rc branch_coverage=1 --test-name t --output-filename $release/jobs/t.info $release >"$work/log" 2>&1
        call env -C $release PERL5LIB="$lcov/usr/share/perl5" PATH="$PWD/tools:$lcov/usr/bin:$PATH" bash -e "$PWD/script"
        ended 0 "README: its script, with a tracefile of $version"
        holds "README: its script: a page of the source of $version" grep -rq 'auto never' $release/html --include='file-*never.cpp.html'
        for words in 'genhtml -o page' 'lcov -o sum -a' 'lcov --summary'; do
            # shellcheck disable=SC2086 # several words
            call lcov_of "$lcov" $words $release/all.info
            ended 1 "MIGRATING: $version guesses end lines: $words"
            holds 'MIGRATING: and stops as it says' grep -q inconsistent "$work/err"
            # shellcheck disable=SC2086
            call lcov_of "$lcov" ${words%% *} --rc derive_function_end_line=0 ${words#* } $release/all.info
            ended 0 "MIGRATING: $version with its option: $words"
        done
    done
    never_called one
    mkdir one/jobs
    (cd one && make -s check && geninfo --quiet --rc lcov_branch_coverage=1 --test-name t --output-filename jobs/t.info .) >"$work/log" 2>&1
    call env -C one PATH="$PWD/tools:$PATH" bash -e "$PWD/script"
    ended 0 'README: its script, with a tracefile of LCOV 1.16'
    holds 'README: its script: a page of the source of LCOV 1.16' grep -rq 'auto never' one/html --include='file-*never.cpp.html'
}

@test "checksums and versions of sources" {
    local found release version files
    releases lcov 'LCOV 2'
    printf '#!/bin/sh\necho v1\n' >version.sh
    chmod +x version.sh
    capture --checksum --version-script "$PWD/version.sh"
    run_shapes c u
    geninfo --quiet --checksum --rc lcov_branch_coverage=1 --test-name u --output-filename one.u c >"$work/log" 2>&1
    for release in "${found[@]}"; do
        version="LCOV $(cat "$BATS_FILE_TMPDIR/lcov.$release.version")"
        holds "--lcov2: $version: its file has versions of sources" grep -q '^VER:v1$' "$release.u"
        checked "a file of $version with versions" "$release.u"
        same_by_filter "a file of $version with checksums" "$release.u"
        "$COVCOLLECT" extract "$work/read" "$PWD/c/*" >two.own
        "$COVCOLLECT" extract one.u "$PWD/c/*" >one.own
        same one.own two.own "--lcov2: $version and 1.16 have the same checksums"
        # Another version of a source.
        sed 's/^\(DA:1,[0-9]*\),.*/\1,other/' "$release.t" >other.new
        call "$COVCOLLECT" merge --lcov2 other.new "$release.u"
        ended 4 "--lcov2: $version: checksums that clash"
        holds "--lcov2: $version: and where" grep -qE "^clash $PWD/c/twice\.c 1 other [^ ]+\$" "$work/err"
    done
}

@test "the files of coverage.py" {
    local found release version test coverage
    releases python3-coverage 'coverage.py'
    cat >many.py <<'END'
import sys


class Shape:
    def __init__(self, side):
        self.side = side

    def area(self):
        return self.side ** 2 if self.side > 1 else 1


def never(x):
    return [y for y in range(x)]


def name_of(n):
    match n:
        case 0:
            return "none"
        case 1:
            return "one"
        case _:
            return "few" if n < 5 else "many"


def shapes(n):
    total = 0
    for i in range(n):
        try:
            if i == 6:
                raise ValueError(i)
            total += Shape(i).area()
        except ValueError:
            continue
        else:
            if i > 2 and i % 2: total += 1
        finally:
            total += 1
    while total > 3:
        total //= 2
    return len(name_of(n)) + total


if shapes(int(sys.argv[1])) < 0:
    never(3)
END
    for release in bookworm "${found[@]}"; do
        coverage=(python3-coverage)
        [ "$release" = bookworm ] || coverage=(coverage_of "$BATS_FILE_TMPDIR/python3-coverage.$release")
        version="coverage.py $("${coverage[@]}" --version | sed -n 's/.*version \([0-9.]*[0-9]\).*/\1/p')"
        for test in 2 8; do
            rm -f .coverage
            "${coverage[@]}" run --branch many.py $test
            "${coverage[@]}" lcov -q -o "$release.$test"
            "${coverage[@]}" json -q -o coverage.json
            same_by_filter "the file of $version, many.py $test" "$release.$test"
            checked "the file of $version, many.py $test" "$release.$test"
            # Its own totals, which don't have functions.
            python3 -c 'import json, sys
totals = json.load(open(sys.argv[1]))["totals"]
print("lines: (%d of %d " % (totals["covered_lines"], totals["num_statements"]))
print("branches: (%d of %d " % (totals["covered_branches"], totals["num_branches"]))' coverage.json >"$work/said"
            call "$COVCOLLECT" summary --lcov2 "$release.$test"
            totals "$work/out" | grep -v ^functions >"$work/our.totals"
            totals "$work/said" >"$work/tool.totals"
            same "$work/tool.totals" "$work/our.totals" "--lcov2: $version, many.py $test: its own totals"
            # By LCOV 2, which else takes a function as called if the line of its def is run.
            if [ -e "$BATS_FILE_TMPDIR/lcov.trixie.version" ]; then
                lcov_of "$BATS_FILE_TMPDIR/lcov.trixie" lcov --rc branch_coverage=1 --rc check_data_consistency=0 \
                    --ignore-errors format --summary "$release.$test" >"$work/said" 2>&1
                same_totals "$version, many.py $test: the totals of LCOV 2" "$work/said" "$release.$test"
            fi
        done
        [ "$release" != forky ] ||
            holds "--lcov2: $version: its file has expressions and functions" \
                [ "$(grep -cE '^BRDA:[0-9]+,0,jump to|^FNA:' "$release.2")" -ge 10 ]
    done
}

@test "files of llvm-cov" {
    local source
    programs
    for source in tiny.c half.cpp; do
        "clang$([ $source = tiny.c ] || echo ++)" -fprofile-instr-generate -fcoverage-mapping -o prog $source
        LLVM_PROFILE_FILE=prog.raw ./prog
        llvm-profdata merge -o prog.data prog.raw
        llvm-cov export -format=lcov -instr-profile prog.data ./prog >llvm.new
        same_by_filter "the file of llvm-cov, $source" llvm.new
        "$COVCOLLECT" merge llvm.new >"$work/wanted"
        same "$work/wanted" "$work/read" "--lcov2: the file of llvm-cov, $source: the bytes of merge without the option"
    done
}

# Worked out by hand from geninfo(1) of LCOV 2.5. LCOV 2 itself reads the first text, where it is there.
@test "by hand" {
    local found release number
    releases lcov 'LCOV 2'
    cat >hand.new <<'END'
# a comment
TN:t
SF:/a.cpp
VER:1.4
FNL:0,3,7
FNA:0,2,_Z1fi
FNA:0,0,_Z1fd
FNF:1
FNH:1
BRDA:4,e0,0,1
BRDA:4,0,1,2
BRDA:5,0,x > 0,2
BRDA:5,0,f(x, 1) == 2,0
BRDA:5,0,x <= 0,-
BRF:5
BRH:3
DA:4,2
DA:5,2
LF:2
LH:2
end_of_record
SF:/b.c
FN:1,5,f
FN:8,10,g
FNDA:1,f
FNDA:0,g
FNF:2
FNH:1
DA:2,1
DA:9,0
LF:2
LH:1
end_of_record
END
    cat >hand.wanted <<'END'
TN:t
SF:/a.cpp
FN:3,_Z1fd
FN:3,_Z1fi
FNDA:0,_Z1fd
FNDA:2,_Z1fi
FNF:2
FNH:1
BRDA:4,0,0,1
BRDA:4,0,1,2
BRDA:5,0,0,2
BRDA:5,0,1,0
BRDA:5,0,2,-
BRF:5
BRH:3
DA:4,2
DA:5,2
LF:2
LH:2
end_of_record
TN:t
SF:/b.c
FN:1,f
FN:8,g
FNDA:1,f
FNDA:0,g
FNF:2
FNH:1
DA:2,1
DA:9,0
LF:2
LH:1
end_of_record
END
    call "$COVCOLLECT" merge --lcov2 hand.new
    same hand.wanted "$work/out" '--lcov2: a text by hand'
    for release in "${found[@]}"; do
        lcov_of "$BATS_FILE_TMPDIR/lcov.$release" lcov --rc branch_coverage=1 --summary hand.new >"$work/said" 2>&1 || true
        same_totals "a text by hand: the totals of LCOV $(cat "$BATS_FILE_TMPDIR/lcov.$release.version")" "$work/said" hand.new
    done

    # An index that is given twice, which no tool writes; numbers and expressions in one block, all marks, and excluded branches.
    printf '%s\n' SF:/a.c FNL:0,3 FNA:0,1,f FNL:0,9 FNA:0,2,g FNA:0,4,f BRDA:1,0,0,1 'BRDA:1,0,x,2' BRDA:1,0,1,4 BRDA:1,0,y,8 \
        BRDA:2,fe0,0,1 BRDA:2,U0,z,5 BRDA:2,eU0,1,5 BRDA:2,0,z,7 FNF:9 DA:1,1 end_of_record FNH:9 BRDA:9,U9,9,9 >odd.new
    printf '%s\n' TN: SF:/a.c FN:3,f FN:9,g FNDA:5,f FNDA:2,g FNF:2 FNH:2 BRDA:1,0,0,1 BRDA:1,0,1,2 BRDA:1,0,2,4 BRDA:1,0,3,8 \
        BRDA:2,0,0,1 BRDA:2,0,3,7 BRF:6 BRH:6 DA:1,1 LF:1 LH:1 end_of_record >odd.wanted
    call "$COVCOLLECT" merge --lcov2 odd.new
    same odd.wanted "$work/out" '--lcov2: an index given twice, and a block with numbers and expressions'
    checked 'these' odd.new

    # Each with its fault, and none of them prints anything.
    number=0
    while IFS='|' read -r fault lines; do
        number=$((number + 1))
        printf '%b' "$lines" >"fault$number.new"
        call "$COVCOLLECT" merge --lcov2 hand.new "fault$number.new"
        ended 4 "--lcov2: $fault: status 4"
        says "$work/err" "--lcov2: and the message" "fault$number.new: refused $fault"
        holds '--lcov2: and nothing is printed' [ ! -s "$work/out" ]
        call "$COVCOLLECT" check --lcov2 "fault$number.new"
        ended 4 "--lcov2: $fault: check"
        says "$work/out" '--lcov2: and what it says' "fault$number.new: refused $fault"
    done <<'END'
Misplaced at 2|SF:/a.c\nFNA:0,1,f\nFNL:0,3\nend_of_record\n
Misplaced at 5|SF:/a.c\nFNL:0,3\nend_of_record\nSF:/b.c\nFNA:0,1,f\nend_of_record\n
Misplaced at 4|SF:/a.c\nFNL:0,3\nend_of_record\nFNA:0,1,f\n
BadLine at 2|SF:/a.c\nFNL:0\nFNA:0,1,f\n
BadLine at 2|SF:/a.c\nFNL:0,3,x\n
BadLine at 3|SF:/a.c\nFNL:0,3\nFNA:0,1,\n
BadLine at 2|SF:/a.c\nBRDA:1,x0,0,1\n
BadLine at 2|SF:/a.c\nBRDA:1,0,,1\n
BadLine at 2|SF:/a.c\nBRDA:1,0,x,y\n
NumberTooLarge at 2|SF:/a.c\nBRDA:1,U18446744073709551616,0,1\n
Outside at 1|BRDA:1,0,x,1\n
Inside at 3|SF:/a.c\nFNL:0,3\nTN:t\n
OpenEnd|SF:/a.c\nFNL:0,3\n
END

    # check: what LCOV 2 writes and nothing counts of isn't skipped, what nobody writes is.
    printf '%s\n' '# c' SF:/a.c VER:1 MCDC:1,2,t,1,0,a MCF:1 MCH:1 DA:1,1 end_of_record >known.new
    printf '%s\n' SF:/a.c DA:1,1 XYZ:1 end_of_record >unknown.new
    call "$COVCOLLECT" check --lcov2 known.new unknown.new
    says "$work/out" '--lcov2: check knows what LCOV 2 writes' 'known.new: sections 1 items 1 odd 0 skipped 0' \
        'unknown.new: sections 1 items 1 odd 0 skipped 1 first XYZ at 3'
    call "$COVCOLLECT" check known.new
    says "$work/out" '--lcov2: without the option check counts these' 'known.new: sections 1 items 1 odd 0 skipped 5 first # at 1'
    printf 'function f called 1\n        1:    3:int f()\n' | sed '1i\        -:    0:Source:a.c' >text.gcov
    call "$COVCOLLECT" check --gcov text.gcov
    cp "$work/out" "$work/wanted"
    call "$COVCOLLECT" check --gcov --lcov2 text.gcov
    same "$work/wanted" "$work/out" '--lcov2: with --gcov the files are what gcov wrote'
    says "$work/out" '--lcov2: which is read' 'text.gcov: sections 1 items 2 odd 0 skipped 0'

    # Calls that are wrong.
    for number in 'merge --lcov2' 'merge --lcov2 --lcov2 hand.new' 'gcov --lcov2 --test t hand.new' 'summary -j 0 hand.new' \
        'summary --jobs 65 hand.new' 'extract --lcov2 hand.new' 'extract -j 2 hand.new *' '--lcov2 merge hand.new'; do
        read -r -a words <<<"$number"
        call "$COVCOLLECT" "${words[@]}"
        ended 2 "--lcov2: a wrong call: $number"
    done
    cp hand.new ./--lcov2
    call "$COVCOLLECT" merge --lcov2 -- --lcov2
    same hand.wanted "$work/out" '--lcov2: a file of this name after --'
}
