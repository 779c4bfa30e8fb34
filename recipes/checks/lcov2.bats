#!/usr/bin/env bats
# lcov2.awk, by three awks, on what LCOV 2, llvm-cov and coverage.py write, and by hand.
#
# need gcc gcc
# need g++ g++
# need lcov geninfo
# need gawk gawk
# need mawk mawk
# need busybox busybox
# need clang clang
# need llvm llvm-cov
# need python3-coverage python3-coverage
# need libcapture-tiny-perl perl -MCapture::Tiny -e 1
# need libdatetime-perl perl -MDateTime -e 1
# need libtimedate-perl perl -MDate::Parse -e 1

load common
load projects
load releases

# The filter by each awk: the output of mawk is left in $work/plain.
plain() { # WHAT FILE OPTIONS...
    local what=$1 file=$2 awk
    shift 2
    for awk in mawk gawk 'busybox awk'; do
        status=0
        $awk "$@" -f "$recipes/lcov2.awk" "$file" >"$work/plain.${awk%% *}" 2>"$work/err" || status=$?
        [ $status -eq 0 ] || break
    done
    cp "$work/plain.mawk" "$work/plain"
    if [ $status -eq 0 ]; then
        cmp -s "$work/plain" "$work/plain.gawk" && cmp -s "$work/plain" "$work/plain.busybox" || status=1
    fi
    verdict $status "lcov2.awk: $what, the same by mawk, gawk and busybox awk"
    show "$work/err"
}
# What the program makes of the plain file, and that no line of it is odd.
summed() { # WHAT LINE...
    local what=$1
    shift
    call "$COVCOLLECT" summary "$work/plain"
    [ "$status" -eq 0 ] || cp "$work/err" "$work/out"
    says "$work/out" "lcov2.awk: $what" "$@"
}
even() { # WHAT
    { echo trace; cat "$work/plain"; printf '\n.\n'; } | "$COVCOLLECT" >"$work/out" || true
    holds "lcov2.awk: $1: no total that doesn't fit" grep -q '^accepted 1 items [0-9]* odd 0$' "$work/out"
}

# The programs in the folder c, built with --coverage and run.
run_programs() {
    mkdir c
    programs
    cp tiny.c half.cpp c
    (cd c && gcc --coverage -O0 -o tiny tiny.c && ./tiny && g++ --coverage -O0 -o half half.cpp && ./half)
}

of_tiny_c=('FN:1,twice' 'FN:5,never' 'FN:9,main' 'FNDA:3,twice' 'FNDA:0,never' 'FNDA:1,main' 'DA:2,3' 'DA:6,0' 'DA:10,1' 'DA:12,3')
of_half_cpp=('FN:2,_Z4halfIiET_S0_' 'FN:2,_Z4halfIdET_S0_' 'FN:8,main' 'FNDA:3,_Z4halfIiET_S0_' 'FNDA:1,_Z4halfIdET_S0_'
    'FNDA:1,main' 'DA:5,1' 'DA:6,3' 'DA:16,1' 'DA:18,0')

# 20 MB as LCOV 2 writes them of C++: functions with aliases, and a fifth of the branches with marks.
large_file() {
    mawk 'BEGIN {
        for (file = 0; size < 20000000; file++) {
            functions = branches = lines = ""
            for (i = 0; i < 40; i++) {
                start = 25 * i + 3
                functions = functions "FNL:" i "," start "," start + 20 "\nFNA:" i "," i % 7 ",_ZN7project" file "function" i "Ei\n"
                for (line = start; line < start + 20; line += 4)
                    branches = branches "BRDA:" line ",0,0," line % 5 "\nBRDA:" line "," (line % 3 ? "" : "e") "0,1,-\n"
                for (line = start; line < start + 20; line++)
                    lines = lines "DA:" line "," line % 11 "\n"
            }
            text = "TN:t\nSF:/build/src/module" file % 40 "/file" file ".cpp\n" functions branches lines "end_of_record\n"
            size += length(text)
            printf "%s", text
        }
    }'
}
# The least processor time of three runs, in hundredths of a second.
least_time() { # COMMAND...
    local TIMEFORMAT=%U least='' this _
    for _ in 1 2 3; do
        this=$({ time "$@" >/dev/null; } 2>&1 | tr -d .)
        [ -n "$least" ] && [ "$((10#$this))" -ge "$least" ] || least=$((10#$this))
    done
    echo $((least / 10))
}

# A file after geninfo(1) of LCOV 2.0 (FN with end lines) and 2.5 (marks, comments, conditions), with what no tool here wrote: hand.new.
hand() {
    sed 's/%%$/\r\r/; s/%$/\r/' >hand.new <<'END'
# made by hand
TN:t
SF:/a.c
VER:1.0
FNL:0,3,5
FNA:0,18446744073709551615,f
FNA:0,2,1,g
FNL:1,9
FNA:1,0,h h
FNF:2
FNH:1
BRDA:4,e0,0,1
BRDA:4,f0,1,-%
BRDA:4,eU0,2,-
BRDA:5,0,f(a, b) == 1,2,1
BRDA:5,0,!(a),18446744073709551615
BRDA:5,U0,c,0
BRDA:5,0,d,0
BRDA:5,1,7,3
BRF:6
BRH:4
MCDC:4,2,t,1,0,a
MCF:1
MCH:1
MRF:1
MRH:1
DA:3,7,lZ8bZ6bGGr4EkvEwDDpwWQ%%
LF:1
LH:1
end_of_record
SF:/b.c
FNDA:1,f
FN:1,5,f
FN:8,10,5,f
FN:20,30
FN:40,7,h
FNDA:2,5,f
FNDA:3,30
FNDA:5,7,h
FNF:4
FNH:4
DA:1,1
LF:1
LH:1
end_of_record
SF:/old.c
FN:1,5,f
FN:2,f
FNDA:4,5,f
FNDA:4,f
FNF:2
FNH:2
LF:0
LH:0
end_of_record
END
}

@test "time" {
    local cut converted
    large_file >large.new
    cut=$(least_time mawk -F, '{ fields += NF } END { print fields }' large.new)
    converted=$(least_time mawk -f "$recipes/lcov2.awk" large.new)
    # It took 14 times as long before it read whole sections, and takes 3 times.
    holds "lcov2.awk: 20 MB in $converted hundredths of a second by mawk, which takes $cut to cut the lines at commas: at most 6 times as long" \
        [ "$converted" -le $((6 * cut)) ]
    rm large.new
}

@test "a file of geninfo 1.x" {
    run_programs
    geninfo --quiet --rc lcov_branch_coverage=1 --test-name t --checksum --output-filename one.new c >"$work/log" 2>&1
    plain 'a file of geninfo 1.x' one.new
    same one.new "$work/plain" 'lcov2.awk: a file of geninfo 1.x comes out as it is'
}

@test "files of LCOV 2, of two releases" {
    local release lcov version
    run_programs
    geninfo --quiet --rc lcov_branch_coverage=1 --test-name t --output-filename one.new c >"$work/log" 2>&1
    "$COVCOLLECT" merge one.new >one.all
    "$COVCOLLECT" extract one.all "$PWD/c/*" >one.info

    # LCOV 2, of two releases.
    for release in trixie forky; do
        lcov=$PWD/$release
        if version=$(fetch $release lcov "$lcov"); then
            version=${version%_all.deb}
            version=LCOV\ ${version#lcov_}
        else
            not_tried "LCOV 2 of Debian $release can't be fetched here; a file by hand, after its geninfo(1), is below"
            continue
        fi
        status=0
        PERL5LIB=$lcov/usr/share/perl5 "$lcov/usr/bin/geninfo" --quiet --rc branch_coverage=1 --test-name t \
            --output-filename "$release.new" c >"$work/err" 2>&1 || status=$?
        ended 0 "lcov2.awk: $version runs here"
        holds 'lcov2.awk: its file has FNL lines' grep -q '^FNL:' "$release.new"
        holds 'lcov2.awk: its file has marks of exceptions' grep -q '^BRDA:[0-9]*,e' "$release.new"
        plain "the file of $version" "$release.new"
        says "$work/plain" "lcov2.awk: $version, tiny.c as worked out by hand" "${of_tiny_c[@]}"
        says "$work/plain" "lcov2.awk: $version, half.cpp as worked out by hand" "${of_half_cpp[@]}" 'BRDA:4,0,0,1' 'BRDA:4,0,1,3'
        summed "$version: 5 of 6 functions are called" '  functions..: 83.3% (5 of 6 functions)'
        even "$version"
        call "$COVCOLLECT" merge "$work/plain"
        cp "$work/out" two.info
        same one.info two.info "lcov2.awk: $version says what geninfo 1.x says of the same run, byte for byte"
        plain "the file of $version without branches of exceptions" "$release.new" -v branches=plain
        # Of half.cpp the throw and the call that throws have a branch each for exceptions.
        holds "lcov2.awk: $version, a branch of exceptions is left out" [ "$(grep -c '^BRDA:5,' "$work/plain")" -eq 1 ]
        even "$version without branches of exceptions"
        # ci.sh with these tools in place of LCOV 1.x.
        project ci.$release
        call env -C ci.$release PERL5LIB="$lcov/usr/share/perl5" PATH="$lcov/usr/bin:$PATH" ci/ci.sh --no-html --lines 66.66
        ended 0 "ci.sh: with geninfo of $version"
        says "$work/out" "ci.sh: the summary with geninfo of $version" '  lines......: 66.7% (4 of 6 lines)' '  functions..: 66.7% (2 of 3 functions)'
    done
}

@test "files of llvm-cov" {
    programs
    clang -fprofile-instr-generate -fcoverage-mapping -o tiny tiny.c && LLVM_PROFILE_FILE=tiny.raw ./tiny
    llvm-profdata merge -o tiny.data tiny.raw
    llvm-cov export -format=lcov -instr-profile tiny.data ./tiny >llvm.new
    plain 'the file of llvm-cov' llvm.new
    says "$work/plain" 'lcov2.awk: llvm-cov, tiny.c as worked out by hand' "${of_tiny_c[@]}"
    same llvm.new "$work/plain" 'lcov2.awk: a file of llvm-cov comes out as it is'
    even 'llvm-cov'
    clang++ -fprofile-instr-generate -fcoverage-mapping -o half half.cpp && LLVM_PROFILE_FILE=half.raw ./half
    llvm-profdata merge -o half.data half.raw
    llvm-cov export -format=lcov -instr-profile half.data ./half >llvm.new
    plain 'the file of llvm-cov of C++' llvm.new
    says "$work/plain" 'lcov2.awk: llvm-cov, half.cpp as worked out by hand' "${of_half_cpp[@]}"
}

@test "files of coverage.py" {
    local version coverage
    programs
    # coverage.py of Debian 12, and one that writes functions, and expressions in place of the numbers of branches.
    python3-coverage run --branch tiny.py && python3-coverage lcov -q -o coverage6.new
    plain "the file of coverage.py $(python3-coverage --version | sed -n 's/.*version \([0-9.]*[0-9]\).*/\1/p')" coverage6.new -v branches=none
    summed 'coverage.py, tiny.py as worked out by hand' '  lines......: 77.8% (7 of 9 lines)' '  functions..: no data found' '  branches...: no data found'
    even 'coverage.py'
    coverage=$PWD/coverage7
    if version=$(fetch forky python3-coverage "$coverage"); then
        version=${version#python3-coverage_}
        version="coverage.py ${version%%+*}"
        coverage="env PYTHONPATH=$coverage/usr/lib/python3/dist-packages /usr/bin/python3 -W ignore -m coverage"
        rm -f .coverage
        { $coverage run --branch tiny.py && $coverage lcov -q -o coverage7.new; } >"$work/err" 2>&1 && status=0 || status=$?
        ended 0 "lcov2.awk: $version runs here"
        holds 'lcov2.awk: its file has expressions for branches' grep -q '^BRDA:[0-9]*,0,jump to' coverage7.new
        plain "the file of $version" coverage7.new
        says "$work/plain" "lcov2.awk: $version, functions and branches as worked out by hand" 'FN:1,twice' 'FNDA:1,twice' 'FN:4,never' 'FNDA:0,never' \
            'BRDA:8,0,0,1' 'BRDA:8,0,1,1' 'BRDA:9,0,0,0' 'BRDA:9,0,1,1'
        summed "$version, tiny.py as worked out by hand" '  lines......: 77.8% (7 of 9 lines)' '  functions..: 50.0% (1 of 2 functions)' '  branches...: 75.0% (3 of 4 branches)'
        even "$version"
    else
        not_tried "the newer coverage.py of Debian forky can't be fetched here"
    fi
}

@test "a file by hand" {
    hand
    cat >hand.wanted <<'END'
TN:t
SF:/a.c
FN:3,f
FNDA:18446744073709551615,f
FN:3,1,g
FNDA:2,1,g
FN:9,h h
FNDA:0,h h
BRDA:4,0,0,1
BRDA:4,0,1,-
BRDA:5,0,0,1
BRDA:5,0,1,18446744073709551615
BRDA:5,0,3,0
BRDA:5,1,7,3
BRF:6
BRH:4
DA:3,7,lZ8bZ6bGGr4EkvEwDDpwWQ
LF:1
LH:1
end_of_record
SF:/b.c
FNDA:1,f
FN:1,f
FN:8,5,f
FN:20,30
FN:40,7,h
FNDA:2,5,f
FNDA:3,30
FNDA:5,7,h
FNF:4
FNH:4
DA:1,1
LF:1
LH:1
end_of_record
SF:/old.c
FN:1,5,f
FN:2,f
FNDA:4,5,f
FNDA:4,f
FNF:2
FNH:2
LF:0
LH:0
end_of_record
END
    plain 'a file by hand' hand.new
    same hand.wanted "$work/plain" 'lcov2.awk: a file by hand, with names that begin with digits and a comma'
    even 'a file by hand'
}

@test "odd files, and what can't be rewritten" {
    local awk
    hand
    # A file of bytes that are no text in any locale.
    printf 'SF:/\377.c\nFN:1,3,\303\344\nFNDA:2,\303\344\nend_of_record\n' >bytes.new
    printf 'SF:/\377.c\nFN:1,\303\344\nFNDA:2,\303\344\nend_of_record\n' >bytes.wanted
    plain 'names of any bytes' bytes.new
    same bytes.wanted "$work/plain" 'lcov2.awk: names of any bytes'
    # A file that was cut off stays one.
    head -n 12 hand.new >cut.new
    plain 'a file that was cut off' cut.new
    call "$COVCOLLECT" merge "$work/plain"
    says "$work/err" 'lcov2.awk: a file that was cut off is still refused' "$work/plain: refused OpenEnd"
    # What can't be rewritten is told, and what comes out is refused.
    printf 'SF:/a.c\nFNA:0,1,f\nDA:1,1\nend_of_record\n' >lost.new
    printf 'SF:/a.c\nBRDA:1,0,0,1\nBRDA:1,0,a,1\nDA:1,1\nend_of_record\n' >mixed.new
    for awk in mawk gawk 'busybox awk'; do
        call $awk -f "$recipes/lcov2.awk" lost.new
        ended 1 "lcov2.awk: status 1 for FNA without FNL, by $awk"
        says "$work/err" 'lcov2.awk: and the line is told' 'lost.new: at 2: FNA:0,1,f has no FNL line in its section'
        cp "$work/out" half.info
        call "$COVCOLLECT" merge half.info
        ended 4 'lcov2.awk: and what came out is refused'
        call $awk -f "$recipes/lcov2.awk" mixed.new
        ended 1 "lcov2.awk: status 1 for a block with numbers and expressions, by $awk"
        call $awk -v branches=some -f "$recipes/lcov2.awk" mixed.new
        ended 2 "lcov2.awk: status 2 for a wrong option, by $awk"
    done
}
