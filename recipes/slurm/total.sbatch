#!/usr/bin/env bash
# The last job that merge-farm submits. Slurm starts it when every share has succeeded. It merges the shares.
#     total.sbatch WORK PROGRAM OUT COUNT remove|keep
# Writes OUT, through a temporary name. Then it removes WORK, or keeps it and creates WORK/done for merge-farm.
set -euo pipefail
work=$1 program=$2 out=$3 count=$4 end=$5
cd "$work"
trap 'rm -f total.part' EXIT
fail() { # STATUS
    echo "$1" >total.status
    exit "$1"
}
rm -f total.status
# If a share were missing, OUT would have only a part of the counts.
shares=()
for ((number = 0; number < count; number++)); do
    share=$(printf 'share.%06d.info' "$number")
    if [ ! -f "$share" ]; then
        echo "$work/$share isn't there" >&2
        fail 1
    fi
    shares+=("$share")
done
status=0
help=$("$program" merge --help 2>/dev/null </dev/null) || fail $?
large=()
[[ $help != *--large* ]] || large=(--large)
"$program" merge "${large[@]}" --jobs "${SLURM_CPUS_PER_TASK:-1}" -- "${shares[@]}" >total.part || status=$?
[ $status -eq 0 ] || fail $status
mv total.part "$out"
: >'done'
if [ "$end" = remove ]; then
    trap - EXIT
    cd /
    rm -rf "$work"
fi
