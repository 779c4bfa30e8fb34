#!/usr/bin/env bats
# farm.mk: the merge of merges is one merge, and only what changed is made anew.
#
# need make make

load common
load projects

make=(make -f "$recipes/farm.mk" -j 8)

# Five machines with seven tracefiles each.
machines() {
    local machine
    for machine in 1 2 3 4 5; do
        tracefiles "machines/m$machine" $((machine * 10)) $((machine * 10 + 6))
    done
}

@test "machines and tracefiles that come, change and go" {
    machines
    mkdir machines/idle
    # A machine that is still writing.
    printf 'SF:/half.c\nDA:1' >machines/m1/.half.info
    together one.info machines
    call "${make[@]}"
    ended 0 'farm.mk: with -j 8, names with spaces, an idle machine'
    same one.info farm.info 'farm.mk: the merge of merges is that of one merge, byte for byte'
    says "$work/err" 'farm.mk: a machine without tracefiles is told' 'farm.mk: skipped, no tracefile in machines/idle'
    call "${make[@]}" EMPTY=fail
    ended 2 'farm.mk: EMPTY=fail fails where a machine has none'
    rmdir machines/idle
    call "${make[@]}"
    holds 'farm.mk: nothing is made anew where nothing changed' [ "$status:$(<"$work/err")" = 0: ]

    rm 'machines/m2/f 21.info'
    together one.info machines
    call "${make[@]}"
    same one.info farm.info 'farm.mk: a tracefile that went is no longer counted'
    holds 'farm.mk: that machine and the total alone are made anew' [ "$(grep -c 'makes' "$work/err")" -eq 2 ]
    sed 's/^DA:1,30$/DA:1,31/' 'machines/m3/f 30.info' >changed
    cat changed >'machines/m3/f 30.info'
    together one.info machines
    call "${make[@]}"
    same one.info farm.info 'farm.mk: a tracefile that changed in its place'
    rm -r machines/m4
    together one.info machines
    call "${make[@]}"
    same one.info farm.info 'farm.mk: a machine that went is no longer counted'
    tracefiles machines/m6 60 63
    mv 'machines/m6/f 60.info' machines/m6/$'odd\n$(name) %.info'
    together one.info machines
    call "${make[@]}" -O
    same one.info farm.info 'farm.mk: a machine that came, with a tracefile of an odd name'
}

@test "a broken tracefile" {
    machines
    call "${make[@]}"
    cp farm.info before.info
    printf 'SF:/s/1.c\nDA:1\n' >'machines/m5/broken.info'
    call "${make[@]}"
    ended 2 'farm.mk: a broken tracefile fails make'
    says "$work/err" 'farm.mk: and is named' 'machines/m5/broken.info: refused BadLine at 2'
    same before.info farm.info 'farm.mk: the total is as it was'
    holds 'farm.mk: nothing half written is left' [ -z "$(find . -name '*.new')" ]
    rm farm.info
    call "${make[@]}" -k
    ended 2 'farm.mk: a broken tracefile fails make -k'
    holds 'farm.mk: no total without a share, with -k neither' [ ! -e farm.info ]
    rm machines/m5/broken.info
    call "${make[@]}" TOTAL=new.info SHARES=new
    ended 0 'farm.mk: with other names for total and shares'
    same before.info new.info 'farm.mk: the same total there'
}

@test "more tracefiles than one call takes" {
    local number
    machines
    # Longer names than xargs gives to one call (128 KiB): 70 of 2,400 bytes. Several merges, one after another, are the share.
    local wide=wide
    for ((number = 0; number < 10; number++)); do
        wide+=$(printf '/%0230d' "$number")
    done
    mkdir -p "$wide/m1"
    for ((number = 0; number < 70; number++)); do
        ln "machines/m1/f 1$((number % 7)).info" "$wide/m1/$(printf '%0100d' "$number").info"
    done
    together one.info wide
    call "${make[@]}" FARM="$wide" TOTAL=wide.info
    same one.info wide.info 'farm.mk: more tracefiles of a machine than one call takes'
    holds 'farm.mk: these were really several calls' \
        [ "$(grep -c '^SF:' wide.info.shares/m1.info)" -gt "$(grep -c '^SF:' one.info)" ]
}

@test "large sums, and shares above the limit" {
    local number
    machines
    mkdir -p large/m1 large/m2
    # A sum of 2 * (2^64 - 1) in a share, and of 3 * (2^64 - 1) in the total.
    printf 'SF:/big.c\nDA:1,18446744073709551615\nend_of_record\n' | tee large/m1/a.info large/m1/b.info >large/m2/a.info
    together one.info large
    call "${make[@]}" FARM=large TOTAL=large.info
    ended 0 'farm.mk: a sum of 2^64 or more in a share'
    says large.info.shares/m1.info 'farm.mk: that sum is in the share' 'DA:1,36893488147419103230'
    says large.info 'farm.mk: and is added up in the total' 'DA:1,55340232221128654845'
    same one.info large.info 'farm.mk: the merge of such merges is that of one merge, byte for byte'
    cp large.info before.info
    # One test with a name of 1,000,000 bytes and 68 sources: every section of the merge has the name, so it is above the limit.
    rm large/*/*
    {
        printf 'TN:%01000000d\n' 7
        for ((number = 0; number < 68; number++)); do
            printf 'SF:/%d.c\nDA:1,1\nend_of_record\n' "$number"
        done
    } >large/m1/a.info
    cp "machines/m1/f 10.info" large/m2
    old_program old
    call "${make[@]}" FARM=large TOTAL=large.info COVCOLLECT="$PWD/old"
    ended 2 'farm.mk: a share above 67,108,864 bytes, by a covcollect without --large'
    says "$work/err" 'farm.mk: and this share is named' 'large.info.shares/m1.info: refused TooLong'
    same before.info large.info 'farm.mk: the total is as it was, too'
    call "${make[@]}" FARM=large TOTAL=large.info
    ended 0 'farm.mk: a share above 67,108,864 bytes, by --large'
    "$COVCOLLECT" merge large/m1/a.info "large/m2/f 10.info" >one.info
    holds 'farm.mk: the total is the merge of all, then too' cmp -s one.info large.info
    rm -r large.info.shares
}

@test "names that can't be" {
    machines
    mkdir 'machines/a b'
    call "${make[@]}"
    ended 2 'farm.mk: a machine whose name make cannot hold'
    holds 'farm.mk: and it is named' grep -q 'machines/a?b: a machine name must' "$work/err"
    call "${make[@]}" FARM=nothing
    ended 2 'farm.mk: no folder of machines'
}
