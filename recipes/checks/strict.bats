#!/usr/bin/env bats
# --strict: a tracefile that says nothing or has odd or skipped lines, and a pattern that matches no file, always stop the call.
#
# need gcc g++
# need lcov geninfo

load common
load projects

# Jobs' tracefiles, jobs/001.info and so on. Each has a source of its own with one line of two hit, a source that all have, and a
# header of the system.
handed() { # HOW MANY
    mkdir jobs
    awk -v jobs="$1" 'BEGIN {
        for (i = 1; i <= jobs; i++) {
            file = sprintf("jobs/%03d.info", i)
            printf "TN:t\nSF:/src/%03d.c\nDA:1,%d\nDA:2,0\nend_of_record\nSF:/src/all.c\nFNL:0,1,9\nFNA:0,1,f\nDA:7,2\nend_of_record\n", i, i >file
            print "SF:/usr/include/x.h\nDA:1,1\nend_of_record" >file
            close(file)
        }
    }'
}
# What their merge is, without the header.
merged() { # HOW MANY
    awk -v jobs="$1" 'BEGIN {
        for (i = 1; i <= jobs; i++) printf "TN:t\nSF:/src/%03d.c\nDA:1,%d\nDA:2,0\nLF:2\nLH:1\nend_of_record\n", i, i
        print "TN:t\nSF:/src/all.c\nFN:1,f\nFNDA:" jobs ",f\nFNF:1\nFNH:1\nDA:7," 2 * jobs "\nLF:1\nLH:1\nend_of_record"
    }'
}
# What a file holds of each kind that isn't clean, and what is told of it after its name.
kinds=(empty page odd function skipped)
unclean() { # KIND
    case $1 in
        empty) ;;
        page) printf '<!DOCTYPE html>\n<html>404</html>\n' ;;
        odd) printf 'SF:/src/all.c\nDA:7,2\nLF:1\nLH:0\nend_of_record\n' ;;
        function) printf 'SF:/src/all.c\nFNDA:1,f\nDA:7,2\nend_of_record\n' ;;
        skipped) printf 'SF:/src/all.c\nDA:7,2\nCOUNT:1\nend_of_record\n' ;;
    esac
}
line() { # KIND
    case $1 in
        empty) echo 'sections 0 items 0 odd 0 skipped 0' ;;
        page) echo 'sections 0 items 0 odd 0 skipped 2 first <!DOCTYPE at 1' ;;
        odd|function) echo 'sections 1 items 1 odd 1 skipped 0' ;;
        skipped) echo 'sections 1 items 1 odd 0 skipped 1 first COUNT at 3' ;;
    esac
}
farm=("$COVCOLLECT" merge --lcov2 --strict --jobs 4 --exclude '/usr/*' -o own.info)

@test "the call of a farm" {
    local kind
    handed 50
    call "${farm[@]}" jobs/*.info
    ended 0 'merge --strict: 50 clean tracefiles'
    holds 'merge --strict: nothing is told' [ ! -s "$work/err" ]
    merged 50 >wanted
    same wanted own.info 'merge --strict: the merge worked out by hand'
    rm wanted
    cp own.info "$work/before.info"
    for kind in "${kinds[@]}"; do
        unclean "$kind" >jobs/023.info
        call "${farm[@]}" jobs/*.info
        told_alone 5 "merge --strict: $kind" "jobs/023.info: $(line "$kind")"
    done
    unclean page >jobs/050.info
    unclean empty >jobs/001.info
    call "${farm[@]}" jobs/*.info
    told_alone 5 'merge --strict: three of them, in their order' "jobs/001.info: $(line empty)" "jobs/023.info: $(line skipped)" "jobs/050.info: $(line page)"
    # What is worse is told alone.
    printf 'SF:/src/a.c\nDA:1,1\n' >jobs/049.info
    call "${farm[@]}" jobs/*.info
    told_alone 4 'merge --strict: one that was cut off beside them' 'jobs/049.info: refused OpenEnd'
    rm jobs/048.info
    ln -s nothing jobs/048.info
    call "${farm[@]}" jobs/*.info
    told_alone 1 "merge --strict: one that can't be read beside them" "jobs/048.info: can't read"
    same "$work/before.info" own.info 'merge --strict: after all these own.info is as it was'
    only 'merge --strict: and nothing is left beside it' . jobs own.info
    call "$COVCOLLECT" merge --lcov2 --jobs 4 -o own.info jobs/0[0-3]*.info
    ended 0 'merge: without the option such tracefiles are taken'
}

@test "patterns that match nothing" {
    handed 3
    call "${farm[@]}" --exclude '/opt/*' --include '/src/*' --include 'src/*' jobs/*.info
    told_alone 5 'merge --strict: two patterns match no file' 'src/*: matches no file' '/opt/*: matches no file'
    only 'merge --strict: no file is written' . jobs
    sed -i '/^SF:.usr/,$d' jobs/*.info
    call "${farm[@]}" jobs/*.info
    told_alone 5 'merge --strict: no job has a header of the system' '/usr/*: matches no file'
    # Names and patterns are told apart by their places alone.
    call "$COVCOLLECT" remove --lcov2 --strict jobs/*.info '/src/all.c'
    told_alone 5 'remove --strict: the shell gives three tracefiles' 'jobs/002.info: matches no file' 'jobs/003.info: matches no file'
    call "$COVCOLLECT" extract --lcov2 jobs/*.info '/src/all.c'
    ended 0 'extract: without the option two of them are in vain'
    says "$work/out" 'extract: and the first is all that is read' FNDA:1,f
    call "$COVCOLLECT" extract --lcov2 --strict jobs/001.info $'*.c\n' '*/all.?'
    told_alone 5 'extract --strict: a pattern with a line feed' '*.c\x0a: matches no file'
    # A threshold comes last.
    call "$COVCOLLECT" summary --lcov2 --strict --fail-under-lines 100 --exclude '*.h' jobs/001.info
    told_alone 5 'summary --strict: a pattern before a threshold' '*.h: matches no file'
    call "$COVCOLLECT" summary --lcov2 --strict --fail-under-lines 100 --exclude '*/all.?' jobs/001.info
    ended 6 'summary --strict: and then the threshold'
    says "$work/err" 'summary --strict: as it says' 'lines: 1 of 2 is below 100%'
}

@test "one unclean tracefile of 500, by 8 jobs" {
    local number kind bad=0 place other
    handed 500
    call "$COVCOLLECT" merge --lcov2 --strict --jobs 8 --exclude '/usr/*' jobs/*.info
    ended 0 'merge --strict: 500 clean tracefiles'
    merged 500 >wanted
    same wanted "$work/out" 'merge --strict: the merge worked out by hand'
    for number in {1..30}; do
        kind=${kinds[number % ${#kinds[@]}]}
        place=$(printf 'jobs/%03d.info' $((RANDOM % 500 + 1)))
        mv "$place" saved
        unclean "$kind" >"$place"
        echo "$place: $(line "$kind")" >wanted
        call "$COVCOLLECT" merge --lcov2 --strict --jobs 8 --exclude '/nothing/*' jobs/*.info
        if [ "$status" -ne 5 ] || [ -s "$work/out" ] || ! cmp -s wanted "$work/err"; then
            bad=$((bad + 1))
            { echo "$place, $kind: status $status"; cat "$work/err"; } | show
        fi
        mv saved "$place"
    done
    verdict $bad 'merge --strict: one at a random place of 500 by 8 jobs is told alone, and nothing is printed, 30 times'
    # Of two the first comes first, whichever job reads it.
    bad=0
    for number in {1..10}; do
        place=$((RANDOM % 250 + 1)) other=$((RANDOM % 250 + 251))
        printf 'jobs/%03d.info\n' $place $other >names
        while read -r place; do cp "$place" "saved.${place##*/}"; unclean page >"$place"; done <names
        sed "s/$/: $(line page)/" names >wanted
        call "$COVCOLLECT" summary --lcov2 --strict --jobs 8 jobs/*.info
        [ "$status" -eq 5 ] && [ ! -s "$work/out" ] && cmp -s wanted "$work/err" || bad=$((bad + 1))
        while read -r place; do mv "saved.${place##*/}" "$place"; done <names
    done
    verdict $bad 'summary --strict: two at random places are told in their order, 10 times'
    unclean empty >jobs/250.info
    call "$COVCOLLECT" check --lcov2 --strict --jobs 8 jobs/*.info
    ended 5 'check --strict: one empty tracefile of 500'
    echo "jobs/250.info: $(line empty)" >wanted
    same wanted "$work/err" 'check --strict: is told alone'
    holds 'check --strict: and each has its line' [ "$(grep -c '^jobs/[0-9]*\.info: sections' "$work/out")" -eq 500 ]
}

@test "a full disk" {
    local where
    handed 4
    for where in '-o /dev/full' '-o none/own.info' '>/dev/full'; do
        call bash -c "exec \"\$COVCOLLECT\" merge --lcov2 --strict jobs/*.info $where"
        ended 1 "merge --strict: clean tracefiles, $where"
    done
    unclean empty >jobs/003.info
    for where in '-o /dev/full' '-o none/own.info' '>/dev/full'; do
        call bash -c "exec \"\$COVCOLLECT\" merge --lcov2 --strict jobs/*.info $where"
        told_alone 5 "merge --strict: an empty tracefile, $where" "jobs/003.info: $(line empty)"
    done
    # A disk that was full when the jobs wrote: all that they left is empty.
    truncate -s 0 jobs/*.info
    call "${farm[@]}" jobs/*.info
    told_alone 5 'merge --strict: all tracefiles are empty' jobs/00{1..4}.info": $(line empty)"
}

@test "packed files and pipes" {
    local name
    handed 2
    gzip --keep --no-name jobs/002.info
    call "$COVCOLLECT" merge --lcov2 --strict jobs/001.info jobs/002.info.gz
    holds 'merge --strict: a packed file is refused, as unclean or by its first line' [ "$status" -eq 5 -o "$status" -eq 4 ]
    holds 'merge --strict: and named' grep -q '^jobs/002\.info\.gz: ' "$work/err"
    call bash -c 'exec "$COVCOLLECT" merge --lcov2 --strict -o all.info jobs/001.info <(zcat jobs/002.info.gz)'
    ended 0 'merge --strict: unpacked into a pipe'
    says all.info 'merge --strict: it is read' FNDA:2,f
    name=none.gz
    call bash -c 'exec "$COVCOLLECT" merge --lcov2 --strict -o all.info jobs/001.info <(zcat "$1" 2>/dev/null)' - $name
    ended 5 'merge --strict: a zcat that fails'
    holds 'merge --strict: is told as an empty file' grep -qxE '/dev/fd/[0-9]+: sections 0 items 0 odd 0 skipped 0' "$work/err"
}

@test "a script that asks for the bad ones" {
    handed 3
    unclean skipped >jobs/002.info
    cat >script <<'END'
set -e
if ! "$COVCOLLECT" check --lcov2 --strict jobs/*.info >checked 2>bad; then
    cut -d: -f1 bad
    exit 3
fi
"$COVCOLLECT" merge --lcov2 --strict jobs/*.info
END
    call bash script
    ended 3 'check --strict: in a script'
    echo jobs/002.info >wanted
    same wanted "$work/out" 'check --strict: names the bad one'
    rm jobs/002.info
    call bash script
    ended 0 'check --strict: without it'
    says "$work/out" 'check --strict: the merge is made' FNDA:2,f
}

# What geninfo itself writes is clean.
@test "geninfo" {
    programs
    call bash -c 'gcc --coverage -O0 -o tiny tiny.c && g++ --coverage -O0 -o half half.cpp && ./tiny && ./half'
    ended 0 'geninfo: two programs are built and run'
    call geninfo --quiet --rc lcov_branch_coverage=1 --rc branch_coverage=1 --test-name t --output-filename counted.info .
    call geninfo --quiet --initial --output-filename baseline.info .
    call "$COVCOLLECT" merge --lcov2 --strict --include "$PWD/*" -o all.info counted.info baseline.info
    ended 0 'merge --strict: what geninfo writes of C and C++ is clean'
    says all.info 'merge --strict: the counts worked out by hand' FNDA:3,twice FNDA:0,never DA:12,3 DA:6,0
}
