#!/usr/bin/env bash
# A job of the array that merge-farm submits. It merges one share of the tracefiles.
#     share.sbatch WORK PROGRAM no|fail|skip
# Reads the names from WORK/share.NNNNNN.list, each ended by a zero byte, and writes WORK/share.NNNNNN.info. If the merge fails, the
# job ends with covcollect's status and also writes it to WORK/share.NNNNNN.status. With fail and skip it merges what WORK/intake makes of
# the tracefiles.
set -euo pipefail
work=$1 program=$2 check=${3-no}
share=$(printf '%s/share.%06d' "$work" "$SLURM_ARRAY_TASK_ID")
trap 'rm -rf "$share.part" "$share.files"' EXIT
# Slurm may start a job a second time.
rm -f "$share.status"
mapfile -d '' -t names <"$share.list"
fail() { # STATUS
    echo "$1" >"$share.status"
    exit "$1"
}
status=0
if [ "$check" != no ]; then
    rm -rf "$share.files"
    mkdir "$share.files"
    printf '%s\0' "${names[@]}" | COVCOLLECT=$program bash "$work/intake" --empty "$check" "$share.files" || status=$?
    [ $status -eq 0 ] || fail $status
    names=("$share.files"/*.info)
fi
# A program that was killed doesn't say what it has.
help=$("$program" merge --help 2>/dev/null </dev/null) || fail $?
options=()
[[ $help != *--lcov2* ]] || options+=(--lcov2)
[[ $help != *--large* ]] || options+=(--large)
"$program" merge "${options[@]}" --jobs "${SLURM_CPUS_PER_TASK:-1}" -- "${names[@]}" >"$share.part" || status=$?
[ $status -eq 0 ] || fail $status
mv "$share.part" "$share.info"
