#!/usr/bin/env bats
# recipes/check itself, with suites that are written here: what it counts, and what an interrupt leaves.

load common

# A copy of recipes/check, with no suite yet.
copy() {
    mkdir -p checks tmp
    cp "$recipes/check" .
    cp "$recipes/checks/common.bash" checks
}
# bats would take a line of this file that begins with @test for a scenario of its own.
suite() { sed 's/^test /@test /' >"checks/$1.bats"; } # NAME
checks() { env TMPDIR="$PWD/tmp" ./check "$COVCOLLECT" "$@"; } # PART...
last() { tail -n 1 "$work/out"; }

@test "what is counted" {
    copy
    suite fails <<'SUITE'
load common
test "one of three fails" {
    holds 'first' true
    holds 'second' false
    holds 'third' true
}
test "a command fails" {
    holds 'fourth' true
    echo 'FAILED  this is printed, and no check'
    ls /nothing
    holds 'fifth' true
}
test "nothing is checked" {
    [ 1 = 1 ]
}
test "nothing is checked, and a command fails" {
    [ 1 = 2 ]
}
test "skipped" {
    skip 'no reason'
}
SUITE
    # Without common.bash, and its setup_file fails.
    suite begins <<'SUITE'
setup_file() { false; }
test "never" {
    true
}
SUITE
    suite passes <<'SUITE'
load common
test "passes" {
    holds 'sixth' true
}
SUITE
    suite odd <<'SUITE'
load common
test "never ends" {
SUITE
    call checks fails
    ended 1 'recipes/check: status 1 where checks fail'
    holds 'recipes/check: what passed and what failed is counted, and nothing that a scenario prints' [ "$(last)" = '4 passed, 3 failed' ]
    says "$work/out" 'recipes/check: each check is told' 'ok      first' 'FAILED  second' 'ok      third' 'ok      fourth' \
        'FAILED  fails: a command fails: ended early' 'ok      fails: nothing is checked' \
        'FAILED  fails: nothing is checked, and a command fails: ended early' 'not tried: fails: skipped: no reason'
    holds 'recipes/check: and why a scenario ended early' grep -q "ls: cannot access '/nothing'" "$work/out"
    call checks begins
    ended 1 'recipes/check: status 1 where a suite cannot begin'
    holds 'recipes/check: which counts, too' [ "$(last)" = '0 passed, 1 failed' ]
    call checks odd
    ended 1 'recipes/check: status 1 where a suite cannot be read'
    call checks passes
    ended 0 'recipes/check: status 0 where all passes'
    holds 'recipes/check: and this is counted' [ "$(last)" = '1 passed, 0 failed' ]
    call checks passes fails
    ended 1 'recipes/check: two parts'
    holds 'recipes/check: of which all checks count' [ "$(last)" = '5 passed, 3 failed' ]
    call checks nothing
    ended 2 'recipes/check: a part that is none'
    says "$work/err" 'recipes/check: and which there are' 'recipes/check: no part nothing: there are begins, fails, odd, passes'
    call ./check /nothing
    ended 2 "recipes/check: a program that isn't there"
    holds 'recipes/check: leaves nothing' [ -z "$(ls -A tmp)" ]
}

# Whether a process is gone. One that nobody has waited for is.
gone() { # PID
    case $(sed 's/.*) //' "/proc/$1/stat" 2>/dev/null) in ''|Z*) ;; *) return 1 ;; esac
}

@test "interrupts" {
    local signal number
    copy
    suite waits <<'SUITE'
load common
setup_file() { daemon sleep 1000 && echo "${daemons[-1]}" >"$PIDS/file"; }
teardown_file() { : >"$PIDS/teardown" && stop_daemons; }
test "waits" {
    daemon sleep 1000
    echo "${daemons[-1]}" >"$PIDS/scenario"
    sleep 1000
}
test "comes later" {
    : >"$PIDS/later"
}
SUITE
    for signal in INT TERM; do
        number=$((128 + $(kill -l $signal)))
        mkdir $signal
        export PIDS=$PWD/$signal
        daemon env --default-signal=INT TMPDIR="$PWD/tmp" ./check "$COVCOLLECT" waits >$signal/told 2>&1
        until [ -s $signal/scenario ]; do sleep 0.1; done
        kill -$signal "${daemons[-1]}"
        status=0
        wait "${daemons[-1]}" || status=$?
        cp $signal/told "$work/err"
        ended $number "recipes/check: is interrupted by $signal"
        says $signal/told 'recipes/check: and says so' \
            "recipes/check: ended early, with status $number; what was tried until then stands above"
        holds 'recipes/check: the process of the scenario is gone' gone "$(<$signal/scenario)"
        holds 'recipes/check: and that of the suite' gone "$(<$signal/file)"
        holds 'recipes/check: the suite cleaned up' [ -e $signal/teardown ]
        holds 'recipes/check: and no other scenario began' [ ! -e $signal/later ]
        holds 'recipes/check: and no folder is left' [ -z "$(ls -A tmp)" ]
    done
}
