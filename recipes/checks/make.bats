#!/usr/bin/env bats
# 'make' after the gate: the program that it built is taken as long as its sources are the same. rt is a stand-in that notes its calls.
# need make make

load common

# The sources, and a program that the gate would have left.
sources() {
    mkdir -p tree bin
    cp -r "$recipes/../crates" "$recipes/../scripts" "$recipes/../Makefile" "$recipes/../crates.txt" "$recipes/../HANDLES" tree
    rm -rf tree/crates/*/out
    cat >bin/rt <<'RT'
#!/bin/sh
case $1 in
    version) echo 'a toolchain' ;;
    *) echo "$*" >>"$RT_CALLS"; echo 'not proved here'; exit 1 ;;
esac
RT
    chmod +x bin/rt
    export RT_CALLS=$PWD/calls PATH=$PWD/bin:$PATH
    : >calls
    mkdir tree/build
    cp "$COVCOLLECT" tree/build/covcollect
    { tree/scripts/built-of; sha256sum <tree/build/covcollect; } >tree/build/covcollect.of
}

@test "nothing is proved again" {
    sources
    call make -C tree
    ended 0 'make: the program of the gate is taken'
    holds 'make: nothing is proved for it' test ! -s calls
}

@test "a changed source is proved" {
    sources
    echo '// changed' >>tree/crates/covstore/src/lib.rt
    call make -C tree
    ended 2 'make: fails where a changed source is not proved'
    holds 'make: a changed source is proved' grep -qx lib calls
    call make -C tree
    ended 2 'make: and fails again'
}

@test "another program is not taken" {
    sources
    echo >>tree/build/covcollect
    call make -C tree
    ended 2 'make: a program that the gate did not build is not taken'
    holds 'make: it is proved and built anew' grep -qx lib calls
}

@test "a change that the program is not built of" {
    sources
    echo '# changed' >>tree/crates/covrun_tests/src/lib.rt
    echo '# changed' >>tree/scripts/e2e
    call make -C tree
    ended 0 'make: a changed test leaves the program as it is'
    holds 'make: nothing is proved for a test' test ! -s calls
}
