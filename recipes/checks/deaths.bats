#!/usr/bin/env bats
# A command that a recipe calls is killed, once, at each of its calls in turn: as when memory is short. A recipe then does what it would
# have done, or fails and leaves all as it was. It never takes a killed command's status for a no, or for a yes.
#
# need gcc gcc
# need git git
# need lcov geninfo
# need make make

load common
load projects

# A folder for PATH, in which each of these commands runs the real one; but the one that is named by DIES kills itself at its NTH call.
# DEATHS is the file in which they count.
mortal() { # COMMAND...
    local name
    mkdir -p "$work/mortal"
    for name in "$@"; do
        cat >"$work/mortal/$name" <<WRAPPER
#!/bin/bash
if [ "\${DIES-}" = $name ]; then
    seen=0
    [ ! -e "\$DEATHS" ] || read -r seen <"\$DEATHS"
    echo \$((seen + 1)) >"\$DEATHS"
    [ \$((seen + 1)) -ne "\$NTH" ] || kill -9 \$\$
fi
exec $([ "$name" = covcollect ] && echo "$COVCOLLECT" || command -v "$name") "\$@"
WRAPPER
        chmod +x "$work/mortal/$name"
    done
    mortals=("$@")
}
# A call in which a command dies. False if the command wasn't called so often.
with_death() { # COMMAND NTH WORDS...
    local name=$1 nth=$2 seen=0
    shift 2
    rm -f "$work/deaths"
    call env PATH="$work/mortal:$PATH" COVCOLLECT="$work/mortal/covcollect" DIES="$name" NTH="$nth" DEATHS="$work/deaths" timeout 60 "$@"
    [ ! -e "$work/deaths" ] || read -r seen <"$work/deaths"
    [ "$seen" -ge "$nth" ]
}
# One call in which each command dies at each of its calls. After it, good has to find what there should be, before it, fresh makes it.
each_death() { # WHAT WORDS...
    local what=$1 name nth deaths=0 bad=0
    shift
    for name in "${mortals[@]}"; do
        for ((nth = 1; nth <= 20; nth++)); do
            fresh
            with_death "$name" "$nth" "$@" || break
            deaths=$((deaths + 1))
            good && continue
            bad=1
            { echo "$name, call $nth: status $status"; tail -n 3 "$work/err"; } | show
        done
    done
    holds "$what: commands were killed ($deaths times)" [ $deaths -ge 3 ]
    verdict $bad "$what: and it was done, or failed and left all as it was"
}
# The status is 0, and the file is the wanted one. Or it tells of a failure, and not of the files that were handed in; then the file is as
# before, or the wanted one if it was the last step that failed.
done_or_failed() { # FILE WANTED BEFORE
    cmp -s "$1" "$2" || { [ "$status" -ne 0 ] && cmp -s "$1" "$3"; } || return 1
    [[ ! $status =~ ^[456]$ ]]
}

@test "ci.sh" {
    local words
    mkdir jobs
    printf 'TN:t\nSF:/a.c\nFNL:0,1,5\nFNA:0,3,f\nDA:1,2\nDA:2,0\nend_of_record\n' >jobs/a.info
    printf 'TN:t\nSF:/a.c\nDA:2,1\nend_of_record\n' >jobs/b.info
    printf '<html>\n' >page.info
    printf '%s\n' TN:t SF:/a.c FN:1,f FNDA:3,f FNF:1 FNH:1 DA:1,2 DA:2,1 LF:2 LH:2 end_of_record >wanted
    echo TN: >before
    mortal covcollect bash cat chmod dirname find grep ls mkdir mktemp mountpoint mv readlink rm
    fresh() { rm -rf coverage*; mkdir coverage; cp before coverage/own.info; }
    good() { done_or_failed coverage/own.info wanted before; }
    each_death 'ci.sh --merge-only' "$recipes/ci.sh" --merge-only --no-html --lines 100 jobs/a.info jobs/b.info
    each_death 'ci.sh --merge-only --empty skip' "$recipes/ci.sh" --merge-only --no-html --empty skip jobs/a.info jobs/b.info page.info
    # A folder of somebody else's files is never taken for an empty one.
    mkdir src
    cp before src/own.c
    fresh() { :; }
    good() { [ "$status" -ne 0 ] && cmp -s before src/own.c; }
    each_death 'ci.sh --output' "$recipes/ci.sh" --merge-only --no-html --output src jobs/a.info
}

# A killed --version isn't that of LCOV 2, whose options LCOV 1 ignores: then branches would be missing.
@test "ci.sh, which builds" {
    project .
    printf 'int twice(int x) {\n    return x > 2 ? 2 * x : 0;\n}\n' >src/twice.c
    call ci/ci.sh --lines 50
    ended 0 'ci.sh: a project with branches'
    cp coverage/own.info wanted
    holds 'ci.sh: which are counted' grep -q '^BRDA:2,0,0,1' wanted
    holds 'ci.sh: and shown' grep -q 'Branches:' coverage/html/index.html
    sed 's/,1$/,7/' wanted >before
    mortal covcollect find geninfo genhtml
    fresh() { rm -rf coverage/html; mkdir -p coverage; cp before coverage/own.info; }
    good() {
        done_or_failed coverage/own.info wanted before || return 1
        [ "$status" -ne 0 ] || grep -q 'Branches:' coverage/html/index.html
    }
    each_death 'ci.sh' ci/ci.sh --lines 50
}

@test "farm.mk" {
    mkdir -p machines/m1 machines/m2
    printf 'TN:t\nSF:/a.c\nFNL:0,1,5\nFNA:0,3,f\nDA:1,2\nend_of_record\n' >machines/m1/a.info
    printf 'TN:t\nSF:/a.c\nDA:2,1\nend_of_record\n' >machines/m2/b.info
    printf '%s\n' TN:t SF:/a.c FN:1,f FNDA:3,f FNF:1 FNH:1 DA:1,2 DA:2,1 LF:2 LH:2 end_of_record >wanted
    echo TN: >before
    mortal covcollect bash cat cmp find grep mkdir mv rm sed sort xargs
    fresh() { rm -rf farm.info*; cp before farm.info; touch -d 2020-01-01 farm.info; }
    good() { done_or_failed farm.info wanted before; }
    each_death 'farm.mk' make -f "$recipes/farm.mk"
    each_death 'farm.mk, CHECK=skip' make -f "$recipes/farm.mk" CHECK=skip
    # Where the shares are there: those that changed are merged again.
    fresh() {
        fresh_farm
        cp "$work/b.info" machines/m2/b.info
    }
    fresh_farm() {
        printf 'TN:t\nSF:/a.c\nDA:2,0\nend_of_record\n' >machines/m2/b.info
        make -f "$recipes/farm.mk" >/dev/null 2>&1
    }
    cp machines/m2/b.info "$work/b.info"
    fresh_farm
    cp farm.info before
    each_death 'farm.mk, a tracefile that changed' make -f "$recipes/farm.mk"
}

@test "tests.mk" {
    mkdir tests
    printf 'int main(void) {\n    return 0;\n}\n' >tests/t.c
    (cd tests && gcc --coverage -O0 -c -o t.o t.c && gcc --coverage -o t t.o)
    call make -f "$recipes/tests.mk" TESTS=tests/t
    ended 0 'tests.mk: a test'
    says tests.info 'tests.mk: which is counted' FNDA:1,main
    cp tests.info wanted
    echo TN: >before
    mortal covcollect awk cat cmp find gcov grep ln mkdir mv rm sort tr uniq xargs
    fresh() { rm -rf tests.info*; cp before tests.info; touch -d 2020-01-01 tests.info; }
    good() { done_or_failed tests.info wanted before; }
    each_death 'tests.mk' make -f "$recipes/tests.mk" TESTS=tests/t
    # Where gcov is in doubt, and where two tests have one name, no death makes it a success.
    printf '#!/bin/sh\necho "lib.gcda:profile mismatch for f" >&2\nexec %s "$@"\n' "$(command -v gcov)" >doubtful
    chmod +x doubtful
    good() { [ "$status" -ne 0 ] && cmp -s tests.info before; }
    each_death 'tests.mk: gcov in doubt' make -f "$recipes/tests.mk" TESTS=tests/t GCOV="$PWD/doubtful"
    cp tests/t tests/.t
    mkdir -p tests_t tests/t_
    cp tests/t tests-t
    each_death 'tests.mk: two tests of one name' make -f "$recipes/tests.mk" TESTS='tests/t tests-t'
}

@test "the stand-in for lcov" {
    printf 'TN:t\nSF:/a.c\nDA:1,1\nLF:1\nLH:1\nend_of_record\n' >wanted
    cp wanted a.info
    printf '<html>\n' >page.info
    echo TN: >before
    mortal covcollect cat grep mktemp mv realpath rm
    fresh() { cp before out.info; ln -sf out.info link.info; }
    good() { done_or_failed out.info wanted before; }
    each_death 'lcov -a' "$recipes/lcov" -a a.info -o link.info
    # An error page is told whatever dies.
    good() { [ "$status" -ne 0 ] && cmp -s out.info before; }
    each_death 'lcov -a, with an error page' "$recipes/lcov" -a a.info -a page.info -o link.info
}

@test "the jobs of merge-farm, Bazel's merger and changed-lines" {
    printf 'TN:t\nSF:%s/r/a.c\nFNL:0,1,5\nFNA:0,3,f\nDA:1,2\nDA:2,0\nend_of_record\n' "$PWD" >a.info
    "$COVCOLLECT" merge --lcov2 a.info >wanted
    echo TN: >before
    mkdir w
    cp "$recipes/intake" w
    printf '%s\0' "$PWD/a.info" >w/share.000000.list
    mortal covcollect awk bash cat find git grep mkdir mktemp mv rm sed tr wc
    fresh() { rm -f w/share.000000.status; cp before w/share.000000.info; }
    good() { done_or_failed w/share.000000.info wanted before; }
    for check in no fail; do
        each_death "share.sbatch, check $check" env SLURM_ARRAY_TASK_ID=0 bash "$recipes/slurm/share.sbatch" "$PWD/w" "$work/mortal/covcollect" $check
    done
    cp wanted w/share.000000.info
    fresh() { rm -f w/done; cp before all.info; }
    good() { done_or_failed all.info wanted before; }
    each_death 'total.sbatch' bash "$recipes/slurm/total.sbatch" "$PWD/w" "$work/mortal/covcollect" "$PWD/all.info" 1 keep
    cp wanted one.info
    echo one.info >list
    each_death 'covcollect-bazel' "$recipes/bazel/covcollect-bazel" --reports_file=list --output_file=all.info
    git init -q r
    printf 'first\n' >r/b.c
    git -C r add b.c
    git -C r -c user.name=check -c user.email=check@example.org commit -q -m first
    seq 1 5 >r/a.c
    git -C r add a.c
    # By hand: of the lines 1 and 2 the first is run, which is 50%.
    fresh() { :; }
    good() { [ "$status" -eq 6 ] || [[ ! $status =~ ^[045]$ ]]; }
    each_death 'changed-lines' env -C r "$recipes/changed-lines" --lines 50.1 HEAD ../one.info
}

# A collector in whose feeder a command dies, and which is started again as README does. SPOOL.said has what it says.
mortal_collector() { # SPOOL
    local pid='' ended=1 over=no
    trap 'over=yes; kill "$pid" 2>/dev/null' TERM
    while [ $over = no ] && [ $ended -ne 0 ] && [ $ended -ne 2 ]; do
        PATH=$work/mortal:$PATH COVCOLLECT=$work/mortal/covcollect "$collector" start "$1" 2>>"$1.said" &
        pid=$!
        [ $over = no ] || kill "$pid"
        ended=0
        wait "$pid" 2>/dev/null || ended=$?
        # The trap ends a wait.
        while kill -0 "$pid" 2>/dev/null; do wait "$pid" 2>/dev/null || true; done
    done
}
# A call as README writes it for a job that must not lose its file.
patient() { # VERB WORDS...
    # shellcheck disable=SC2016 # the inner shell expands them
    call env PATH="$with_path" "$timeout" 60 bash -c 'until "$0" "$@"; do s=$?; [ $s -eq 1 ] || exit $s; sleep 0.1; done' "$collector" "$@"
}
timeout=$(command -v timeout) with_path=$PATH
collector=$recipes/collector/collector
collector_files() {
    printf 'TN:t\nSF:/a.c\nFNL:0,1,2\nFNA:0,5,f\nDA:1,1\nend_of_record\n' >new.info
    printf 'TN:t\nSF:/a.c\nDA:2,1\nend_of_record\n' >a.info
    printf 'TN:t\nSF:/a.c\nDA:2,7\nend_of_record\n' >b.info
    # By hand: new.info three times, and a.info once.
    printf '%s\n' TN:t SF:/a.c FN:1,f FNDA:15,f FNF:1 FNH:1 DA:1,3 DA:2,1 LF:2 LH:2 end_of_record >wanted
}
# What jobs are told of all that they give, and the report. Fails with what was wrong.
jobs_are_told() { # SPOOL
    local spool=$1
    patient give "$spool" --key second new.info
    grep -qxE 'accepted second (items 3 odd 0|again)' "$work/out" || { echo "second: status $status, $(cat "$work/out" "$work/err")"; return 1; }
    patient give "$spool" --key third new.info
    grep -qxE 'accepted third (items 3 odd 0|again)' "$work/out" || { echo "third: status $status, $(cat "$work/out" "$work/err")"; return 1; }
    patient give "$spool" --key plain a.info
    grep -qxE 'accepted plain (items 1 odd 0|again)' "$work/out" || { echo "plain: status $status, $(cat "$work/out" "$work/err")"; return 1; }
    patient give "$spool" --key plain a.info
    [ "$(<"$work/out")" = 'accepted plain again' ] || { echo "plain again: status $status, $(cat "$work/out" "$work/err")"; return 1; }
    patient give "$spool" --key plain b.info
    [ "$status" -eq 4 ] && grep -q 'differs from' "$work/err" || { echo "plain with other bytes: status $status, $(cat "$work/out" "$work/err")"; return 1; }
    patient report "$spool"
    cmp -s wanted "$work/out" || { echo "report: status $status, $(cat "$work/out" "$work/err")"; return 1; }
}

# A killed grep isn't a no to "is this a file of LCOV 2?", a killed cmp isn't a no to "is this the same file?".
@test "the collector's feeder" {
    local name nth seen deaths=0 bad=0 what spool
    collector_files
    mortal covcollect cat cmp find flock grep mkdir mkfifo mv rm sed setsid sync tail wc
    for name in "${mortals[@]}"; do
        for nth in 1 2 3 4; do
            rm -f "$work/deaths"
            # A file that was accepted before is read again.
            spool=$name.$nth
            mkdir -p "$spool"/{new,in,out,accepted,refused}
            cp new.info "$spool/accepted/first"
            export DIES=$name NTH=$nth DEATHS=$work/deaths
            daemon mortal_collector "$spool"
            unset DIES NTH DEATHS
            what=$(jobs_are_told "$spool") || { bad=1; { echo "$name, call $nth: $what"; tail -n 3 "$spool.said"; } | show; }
            timeout 20 "$collector" stop "$spool" >/dev/null 2>&1 || true
            stop_daemons
            seen=0
            [ ! -e "$work/deaths" ] || read -r seen <"$work/deaths"
            [ "$seen" -ge "$nth" ] || break
            deaths=$((deaths + 1))
        done
    done
    holds "collector: commands of its feeder were killed ($deaths times)" [ $deaths -ge 20 ]
    verdict $bad 'collector: each job was told the right thing, and the report is that of all files'
}

# The same for commands of the clients, in this folder and over a connection: a file that is given again counts once.
@test "the collector's clients" {
    local name nth seen deaths=0 bad=0 way words spool
    collector_files
    mortal covcollect cat head mktemp mv realpath rm sha256sum stat sync tail timeout uname wc
    for way in folder connection; do
        for name in "${mortals[@]}"; do
            for nth in 1 2 3; do
                rm -f "$work/deaths"
                spool=$way.$name.$nth
                daemon mortal_collector "$spool"
                until [ -s "$spool/pids" ]; do sleep 0.05; done
                words=(give "$spool")
                [ $way = folder ] || words=(give --via "$collector answer $PWD/$spool")
                export DIES=$name NTH=$nth DEATHS=$work/deaths
                with_path=$work/mortal:$PATH
                patient "${words[@]}" new.info
                [ "$status" -eq 0 ] || { bad=1; { echo "$way, $name, call $nth: status $status"; cat "$work/err"; } | show; }
                words[0]=report
                patient "${words[@]}"
                [ "$(grep -cxE 'FNDA:5,f|DA:1,1|end_of_record' "$work/out")" -eq 3 ] || { bad=1; { echo "$way, $name, call $nth: report"; cat "$work/out" "$work/err"; } | show; }
                unset DIES NTH DEATHS
                with_path=$PATH
                # What was given again counts once.
                timeout 20 "$collector" give "$spool" new.info >/dev/null 2>&1
                timeout 20 "$collector" report "$spool" | grep -qx FNDA:5,f || { bad=1; echo "$way, $name, call $nth: it counts twice" | show; }
                timeout 20 "$collector" stop "$spool" >/dev/null 2>&1 || true
                stop_daemons
                seen=0
                [ ! -e "$work/deaths" ] || read -r seen <"$work/deaths"
                [ "$seen" -ge "$nth" ] || break
                deaths=$((deaths + 1))
            done
        done
    done
    holds "collector: commands of its clients were killed ($deaths times)" [ $deaths -ge 20 ]
    verdict $bad 'collector: each file was accepted in the end, and counts once'
}

# A grep that has no memory for a file's lines ends with 2, each time: the file is refused after the second time, and the others stay.
@test "a grep without memory" {
    collector_files
    mortal covcollect
    printf '#!/bin/bash\nfor file; do :; done\n[ "$(stat -c %%s -- "$file")" -lt 1000 ] || exit 2\nexec %s "$@"\n' "$(command -v grep)" >"$work/mortal/grep"
    chmod +x "$work/mortal/grep"
    { cat new.info; seq -f '# %0.0f' 1000; } >hungry.info
    daemon mortal_collector spool
    patient give spool --key first new.info
    says "$work/out" 'collector: a file of LCOV 2' 'accepted first items 3 odd 0'
    patient give spool hungry.info
    ended 3 'collector: a file for which grep has no memory'
    says "$work/err" 'collector: and why' 'hungry.info: the session died twice while it read this file (memory?)'
    patient give spool --key second new.info
    says "$work/out" 'collector: goes on after that' 'accepted second items 3 odd 0'
    patient report spool
    printf '%s\n' TN:t SF:/a.c FN:1,f FNDA:10,f FNF:1 FNH:1 DA:1,2 LF:1 LH:1 end_of_record >wanted
    same wanted "$work/out" 'collector: with what it had'
    patient stop spool
}
