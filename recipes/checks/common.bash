# What each suite loads: how a check is told, the folder that a scenario works in, and the processes that it starts. See README.md.
# shellcheck shell=bash

if [ -z "${CHECKS_CLEAN-}" ]; then
    # What the user has set must not change what is tried. Only once, since setup_file may set such variables itself.
    unset "${!SLURM_@}" "${!SBATCH_@}" "${!COVERAGE_@}" MAKEFLAGS MAKELEVEL
    export CHECKS_CLEAN=yes LC_ALL=C
fi
recipes=$(cd "$BATS_TEST_DIRNAME/.." && pwd -P)
COVCOLLECT=$(realpath -e "${COVCOLLECT:-$recipes/../build/covcollect}") || return 1
export COVCOLLECT
failed=0 daemons=()

# --- a scenario -----------------------------------------------------------------------------------------------------------------

# Each scenario (@test) works in an empty folder of its own. $work is the folder above, for what isn't part of the scenario.
setup() {
    set -uo pipefail
    trap 'exit 130' INT
    trap 'exit 143' TERM
    work=$BATS_TEST_TMPDIR
    if [ -n "${CHECKS_RUN-}" ]; then
        # recipes/check ends this process if it is interrupted itself, and then none begins anew.
        note $$ >"$CHECKS_RUN/scenario"
        [ ! -e "$CHECKS_RUN/stop" ] || skip interrupted
    fi
    mkdir "$work/here"
    cd "$work/here" || return
    told "-- $(basename "$BATS_TEST_FILENAME" .bats): $BATS_TEST_DESCRIPTION"
}

# A failed check doesn't end its scenario: it fails here.
teardown() {
    set +uo pipefail
    trap '' INT TERM PIPE
    [ -n "$BATS_TEST_COMPLETED" ] || verdict 1 "$(basename "$BATS_TEST_FILENAME" .bats): $BATS_TEST_DESCRIPTION: ended early"
    stop_daemons
    cd /
    [ "$failed" -eq 0 ]
}

# --- processes ------------------------------------------------------------------------------------------------------------------

# Starts a command in the background, in a group of its own, so that no interrupt ends it before the scenario has cleaned up. It is
# stopped when the scenario ends, or by recipes/check, if bats itself was killed. The two descriptors are those on which bats waits.
daemon() { # COMMAND...
    set -m
    "$@" 3>&- 4>&- &
    set +m
    daemons+=($!)
    [ -z "${CHECKS_RUN-}" ] || note $! >>"$CHECKS_RUN/daemons"
}
# A process for recipes/check: its number, and the moment when it started, which tells it from a later one with the same number.
note() { # PID
    echo "$1 $(sed 's/.*) //' "/proc/$1/stat" 2>/dev/null | cut -d' ' -f20)"
}
stop_daemons() {
    local pid
    for pid in "${daemons[@]}"; do
        kill "$pid" 2>/dev/null || true
    done
    for pid in "${daemons[@]}"; do
        wait "$pid" 2>/dev/null || true
    done
    daemons=()
}
free_port() { # FIRST: a port from there that nobody listens on
    local port=$1
    while (: >"/dev/tcp/127.0.0.1/$port") 2>/dev/null; do
        port=$((port + 1))
    done
    echo "$port"
}

# --- another user ---------------------------------------------------------------------------------------------------------------

# So that "${nobody[@]}" can run $program in this scenario. The folders above are mktemp's, which others may not search.
nobody=(setpriv --reuid=nobody --regid=nogroup --clear-groups)
open_up() {
    [ "$(id -u)" -eq 0 ] || return 1
    chmod o+x ${CHECKS_RUN+"$CHECKS_RUN"} "$BATS_RUN_TMPDIR" "$BATS_RUN_TMPDIR"/test "$work"
    install -m 755 "$COVCOLLECT" "$work/program"
    program=$work/program
    "${nobody[@]}" "$program" --version >/dev/null
}

# --- checks ---------------------------------------------------------------------------------------------------------------------

# bats hands descriptor 3 on as it is. recipes/check counts the lines that begin with ok and FAILED.
told() { printf '# %s\n' "$*" >&3; }
show() { sed 's/^/#         /' "$@" >&3; }
not_tried() { told "not tried: $*"; } # WHAT AND WHY: what this machine can't do
verdict() { # STATUS WHAT
    if [ "$1" -eq 0 ]; then
        told "ok      $2"
    else
        failed=$((failed + 1))
        told "FAILED  $2"
    fi
}
# The call's status, output and messages are left in $status, $work/out and $work/err.
call() { # COMMAND...
    status=0
    "$@" >"$work/out" 2>"$work/err" </dev/null 3>&- 4>&- || status=$?
}
# A call that must end well, and of which nothing is looked at.
quietly() { "$@" >/dev/null 2>&1 </dev/null 3>&- 4>&-; }
ended() { # STATUS WHAT: whether the last call ended so
    local bad=0
    [ "$status" -eq "$1" ] || bad=1
    verdict $bad "$2"
    [ $bad -eq 0 ] || { told "        status $status in place of $1; messages:"; tail -n 8 "$work/err" | show; }
}
holds() { # WHAT COMMAND...: whether the command succeeds
    local what=$1 bad=0
    shift
    "$@" || bad=1
    verdict $bad "$what"
}
same() { # FILE FILE WHAT: whether both have the same bytes
    local bad=0
    cmp -s "$1" "$2" || bad=1
    verdict $bad "$3"
    [ $bad -eq 0 ] || { diff "$1" "$2" | head -n 20 | show; } || true
}
says() { # FILE WHAT LINE...: whether the file has each line, as it is
    local file=$1 what=$2 line bad=0
    shift 2
    for line in "$@"; do
        grep -qxF -- "$line" "$file" || { bad=1; break; }
    done
    verdict $bad "$what"
    [ $bad -eq 0 ] || { told "        not there: $line; there is:"; head -n 20 "$file" | show; }
}
told_alone() { # STATUS WHAT LINE...: whether the last call ended so, printed nothing, and told these lines alone
    local number=$1 what=$2
    shift 2
    ended "$number" "$what"
    printf '%s\n' "$@" >"$work/wanted"
    same "$work/wanted" "$work/err" "$what: what is told"
    same /dev/null "$work/out" "$what: nothing is printed"
}
clashes() { # WHAT FILE LINE CHECKSUM CHECKSUM: with more than one job either file may be read first
    if grep -qxF -e "clash $2 $3 $4 $5" -e "clash $2 $3 $5 $4" "$work/err"; then
        verdict 0 "$1"
    else
        verdict 1 "$1"
        show "$work/err"
    fi
}
only() { # WHAT FOLDER NAME...: whether the folder has exactly these names
    local what=$1 folder=$2 bad=0
    shift 2
    [ "$(ls -A "$folder")" = "$(printf '%s\n' "$@" | sort)" ] || bad=1
    verdict $bad "$what"
    [ $bad -eq 0 ] || find "$folder" -mindepth 1 -maxdepth 1 | sort | show
}
