#!/usr/bin/env bats
# merge-farm, with a Slurm of three nodes on this machine.
#
# need slurm-wlm slurmctld
# need slurm-wlm slurmd
# need slurm-client sbatch
# need munge munged

load common
load projects

merge=$recipes/slurm/merge-farm

setup_file() {
    trap 'exit 130' INT
    trap 'exit 143' TERM
    export SLURM_CONF=$BATS_FILE_TMPDIR/cluster/slurm.conf
    if start_slurm >"$BATS_FILE_TMPDIR/start" 2>&1; then
        : >"$BATS_FILE_TMPDIR/up"
    fi
}
# No job of this Slurm outlives it; another one on this machine is left alone.
teardown_file() {
    local try
    trap '' INT TERM PIPE
    if [ "${SLURM_CONF-}" = "$BATS_FILE_TMPDIR/cluster/slurm.conf" ]; then
        timeout 5 scancel --user="$(id -un)" 2>/dev/null || true
        for ((try = 0; try < 20; try++)); do
            [ -n "$(timeout 5 squeue --noheader 2>/dev/null)" ] || break
            sleep 0.5
        done
    fi
    stop_daemons
}
needs_slurm() { [ -e "$BATS_FILE_TMPDIR/up" ] || skip "Slurm didn't start"; }

# Starts munge and Slurm on this machine: a controller and three nodes, with all their files below the suite's folder.
start_slurm() {
    local top=$BATS_FILE_TMPDIR/cluster host port number user
    host=$(hostname -s)
    user=$(id -un)
    mkdir -p "$top/munge" "$top/state"
    chmod 700 "$top/munge"
    head -c 1024 /dev/urandom >"$top/munge/key"
    chmod 400 "$top/munge/key"
    daemon munged --foreground --force --key-file="$top/munge/key" --socket="$top/munge/socket" --pid-file="$top/munge/pid" \
        --log-file="$top/munge/log" --seed-file="$top/munge/seed" >"$top/munged.said" 2>&1
    port=$(free_port $((20000 + RANDOM % 20000)))
    cat >"$top/slurm.conf" <<END
ClusterName=recipes
SlurmctldHost=$host(127.0.0.1)
SlurmctldPort=$port
SlurmUser=$user
SlurmdUser=$user
AuthType=auth/munge
AuthInfo=socket=$top/munge/socket
CredType=cred/munge
StateSaveLocation=$top/state
SlurmdSpoolDir=$top/spool.%n
SlurmctldPidFile=$top/slurmctld.pid
SlurmdPidFile=$top/slurmd.%n.pid
SlurmctldLogFile=$top/slurmctld.log
SlurmdLogFile=$top/slurmd.%n.log
SlurmdParameters=config_overrides
MpiDefault=none
ProctrackType=proctrack/linuxproc
TaskPlugin=task/none
SelectType=select/cons_tres
SelectTypeParameters=CR_Core
JobAcctGatherType=jobacct_gather/none
AccountingStorageType=accounting_storage/none
JobCompType=jobcomp/none
SwitchType=switch/none
ReturnToService=2
MaxArraySize=20
PartitionName=all Nodes=ALL Default=YES State=UP
END
    for number in 1 2 3; do
        port=$(free_port $((port + 1)))
        echo "NodeName=n$number NodeHostname=$host NodeAddr=127.0.0.1 Port=$port CPUs=2 RealMemory=100" >>"$top/slurm.conf"
    done
    for ((number = 0; number < 50; number++)); do
        [ ! -S "$top/munge/socket" ] || break
        sleep 0.2
    done
    daemon slurmctld -D >"$top/slurmctld.said" 2>&1
    for number in 1 2 3; do
        mkdir -p "$top/spool.n$number"
        daemon slurmd -D -N "n$number" >"$top/slurmd.n$number.said" 2>&1
    done
    for ((number = 0; number < 60; number++)); do
        [ "$(sinfo --noheader --states=idle --format=%D 2>/dev/null)" != 3 ] || return 0
        sleep 0.5
    done
    tail -n 5 "$top"/*.said "$top"/*.log 2>/dev/null
    return 1
}

# 25 tracefiles of two machines in the folder in, and their merge, one.info.
farm() {
    tracefiles 'in/m 1' 1 15
    tracefiles in/m2 16 25
    printf 'SF:/half.c\nDA:1' >in/m2/.half.info
    mkdir in/.old
    printf 'DA:x' >in/.old/x.info
    together one.info in
    # The program, which also notes the node that it merges on, and takes a second, so that the nodes share the work. That a job asks
    # it for its help first isn't a merge.
    printf '#!/bin/sh\n[ "$2" = --help ] || { echo "$SLURMD_NODENAME" >>"%s/nodes"; sleep 1; }\nexec "%s" "$@"\n' "$PWD" "$COVCOLLECT" >noting
    chmod +x noting
}

# A total of an earlier day, farm.info, and its copy, before.info.
older() { cp one.info farm.info && cp one.info before.info; }

@test "three nodes on this machine" {
    if [ -e "$BATS_FILE_TMPDIR/up" ]; then
        verdict 0 "slurm: $(sbatch --version) with three nodes on this machine"
    else
        verdict 1 'slurm: three nodes on this machine'
        show "$BATS_FILE_TMPDIR/start"
    fi
}

@test "shares, and the jobs that merge them" {
    needs_slurm
    farm
    call env COVCOLLECT=./noting "$merge" --share 4 farm.info in
    ended 0 'merge-farm: 25 tracefiles in 7 shares and a last job'
    same one.info farm.info 'merge-farm: the text is that of one merge, byte for byte'
    holds 'merge-farm: 8 jobs ran' [ "$(wc -l <nodes)" -eq 8 ]
    holds 'merge-farm: on all three nodes' [ "$(sort -u nodes | wc -l)" -eq 3 ]
    only 'merge-farm: leaves nothing else' . farm.info in nodes noting one.info
    find in -name '[!.]*.info' ! -path '*/.*' >list
    call bash -c '"$0" --files - --share 25 --cpus 1 listed.info <list' "$merge"
    ended 0 'merge-farm: names from a list, all in one share'
    same one.info listed.info 'merge-farm: the same text'
    printf '%s\n' 'in/m 1/f 1.info' '' 'in/m 1/f 1.info' >list
    "$COVCOLLECT" merge 'in/m 1/f 1.info' 'in/m 1/f 1.info' >twice.info
    call "$merge" --files list --share 1 listed.info
    same twice.info listed.info 'merge-farm: a tracefile that is named twice counts twice'
}

@test "shares that are broken or clash" {
    needs_slurm
    farm
    # Two shares are broken.
    older
    cp -r in broken
    printf 'SF:/s/1.c\nDA:1\n' >'broken/m 1/f 3.info'
    printf 'SF:/s/1.c\nDA:1,1\n' >'broken/m2/f 20.info'
    call env COVCOLLECT=./noting "$merge" --share 4 farm.info broken
    ended 4 'merge-farm: status 4 where tracefiles are broken'
    says "$work/err" 'merge-farm: each of them is named' "$PWD/broken/m 1/f 3.info: refused BadLine at 2" \
        "$PWD/broken/m2/f 20.info: refused OpenEnd"
    holds "merge-farm: the last job didn't run" [ "$(wc -l <nodes)" -eq 7 ]
    same before.info farm.info 'merge-farm: the total is as it was'
    call squeue --noheader
    holds 'merge-farm: no job is left' [ ! -s "$work/out" ]
    # Two versions of a source, in different shares: each share is fine by itself.
    printf 'SF:/v.c\nDA:1,1,abc\nend_of_record\n' >'broken/m 1/f 3.info'
    printf 'SF:/v.c\nDA:1,1,abc\nDA:2,1,abd\nend_of_record\nSF:/w.c\nDA:5,1,abc\nend_of_record\n' >'broken/m2/f 20.info'
    printf 'SF:/w.c\nDA:5,1,abd\nend_of_record\n' >'broken/m2/f 16.info'
    call "$merge" --share 1 --files <(printf '%s\n' 'broken/m2/f 20.info' 'broken/m2/f 16.info') farm.info
    ended 4 'merge-farm: status 4 where checksums of two shares clash'
    clashes 'merge-farm: the clash is told' /w.c 5 abc abd
    only 'merge-farm: no folder of work is left, where shares are broken or clash' . before.info broken farm.info in nodes noting one.info
}

@test "sums of many digits, and shares above the limit" {
    local number
    needs_slurm
    farm
    older
    # A sum of 2 * (2^64 - 1) in the first share, and of 3 * (2^64 - 1) in the total.
    printf 'SF:/big.c\nDA:1,18446744073709551615\nend_of_record\n' >big.info
    printf 'big.info\nbig.info\nbig.info\n' >list
    "$COVCOLLECT" merge big.info big.info big.info >big.one
    call "$merge" --files list --share 2 big.sum
    ended 0 'merge-farm: a sum of 2^64 or more in a share'
    says big.sum 'merge-farm: which is added up in the total' 'DA:1,55340232221128654845'
    same big.one big.sum 'merge-farm: the text is that of one merge, byte for byte, there too'
    # One test with a name of 1,000,000 bytes, and 34 sources in each of two tracefiles: every section of a merge has the name, so the
    # merge of both is above the limit, and the merge of each isn't. Only a covcollect with --large reads it.
    for number in 1 2; do
        {
            printf 'TN:%01000000d\n' 7
            printf 'SF:/%d.c\nDA:1,1\nend_of_record\n' $(seq ${number}01 ${number}34)
        } >big.$number
    done
    printf 'big.1\nbig.2\n' >list
    old_program old
    call env COVCOLLECT=./old "$merge" --files list --share 2 farm.info
    ended 4 'merge-farm: a share above 67,108,864 bytes, by a covcollect without --large'
    says "$work/err" 'merge-farm: and what to do' 'share.000000.info: refused TooLong' \
        'merge-farm: a share is too large for a tracefile: use a --share below 2'
    same before.info farm.info 'merge-farm: the total is as it was, as before'
    "$COVCOLLECT" merge big.1 big.2 >big.one
    call "$merge" --files list --share 1 big.sum
    ended 0 'merge-farm: in shares of one'
    holds 'merge-farm: which gives the text of one merge' cmp -s big.one big.sum
    rm big.sum old
    call "$merge" --files list --share 2 big.sum
    ended 0 'merge-farm: a share above 67,108,864 bytes, by --large'
    holds 'merge-farm: which gives that text too' cmp -s big.one big.sum
    only 'merge-farm: no folder of work is left, where a share is too large' . before.info big.1 big.2 big.info big.one big.sum farm.info in list noting one.info
}

@test "a share that is cancelled" {
    needs_slurm
    farm
    older
    # A share that is cancelled has no result. In the order of bytes it is f 1, f 10 to f 15, f 2, f 3, f 4: share 1 begins with f 5.
    printf '#!/bin/sh\n[ "$SLURM_ARRAY_TASK_ID" != 1 ] || scancel "${SLURM_ARRAY_JOB_ID}_1"\nsleep 2\nexec "%s" "$@"\n' "$COVCOLLECT" >cancelling
    chmod +x cancelling
    call env COVCOLLECT=./cancelling "$merge" --share 10 farm.info in
    ended 1 'merge-farm: status 1 where a share is cancelled'
    holds 'merge-farm: and which one is told' grep -q '^merge-farm: share 1 (from .*/in/m 1/f 5.info on) failed with status' "$work/err"
    same before.info farm.info 'merge-farm: the total is as it was, again'
    only 'merge-farm: no folder of work is left, where a share is cancelled' . before.info cancelling farm.info in noting one.info
}

@test "--check" {
    needs_slurm
    farm
    # By --check a file without a record is named. Tracefiles of LCOV 2 are read in any case.
    mkdir checked
    printf 'SF:/two.c\nFNL:0,1,5\nFNA:0,3,f\nDA:1,1\nend_of_record\n' >checked/a.info
    cp 'in/m2/f 16.info' checked/b.info
    call "$merge" --check fail --share 1 checked.info checked
    ended 0 'merge-farm: --check'
    says checked.info 'merge-farm: a tracefile of LCOV 2 is read' 'SF:/two.c' 'FNDA:3,f'
    call "$merge" --share 1 unchecked.info checked
    same checked.info unchecked.info 'merge-farm: without --check too'
    rm unchecked.info
    printf '<html>\n' >checked/c.info
    call "$merge" --check fail --share 1 checked.info checked
    ended 5 'merge-farm: --check, with a tracefile without a record'
    holds 'merge-farm: which is named' grep -q "^$PWD/checked/c\.info: sections 0 items 0 odd 0 skipped 1 first <html>" "$work/err"
    mv checked.info checked.before
    call "$merge" --check skip --share 1 checked.info checked
    ended 0 'merge-farm: --check skip'
    same checked.before checked.info 'merge-farm: which gives the same total'
    holds 'merge-farm: and names it too' grep -q "^$PWD/checked/c\.info: sections 0 items 0" "$work/err"
    only 'merge-farm: no folder of work is left, by --check' . checked checked.before checked.info in noting one.info
}

@test "what is refused, --no-wait, and an interrupt" {
    local number
    needs_slurm
    farm
    call "$merge" --share 1 farm.info in
    ended 2 'merge-farm: more shares than an array may have'
    holds 'merge-farm: and how to make them fewer' grep -q 'use --share 2 or more' "$work/err"
    mkdir empty
    call "$merge" farm.info empty
    ended 2 'merge-farm: a folder without tracefiles'
    call "$merge" --no-wait later.info in
    ended 0 'merge-farm: --no-wait'
    for ((number = 0; number < 60; number++)); do
        [ -n "$(squeue --noheader)" ] || break
        sleep 0.5
    done
    same one.info later.info 'merge-farm: the total comes by itself'
    # Interrupted: the jobs and their folder go.
    printf '#!/bin/sh\nexec sleep 300\n' >slow
    chmod +x slow
    call env COVCOLLECT=./slow timeout 3 "$merge" farm.info in
    for ((number = 0; number < 30; number++)); do
        [ -n "$(squeue --noheader)" ] || break
        sleep 0.5
    done
    ended 124 'merge-farm: is interrupted'
    holds 'merge-farm: interrupted, it cancels its jobs' [ -z "$(squeue --noheader)" ]
    only 'merge-farm: no folder of work is left, where it is interrupted' . empty in later.info noting one.info slow
}
