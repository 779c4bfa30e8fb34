#!/usr/bin/env bats
# collector: faults that stay, other users, and a disk that is full.
#
# need socat socat

load common

collector=$recipes/collector/collector

one_file() { printf 'TN:t\nSF:/a.c\nDA:1,2\nDA:2,0\nend_of_record\n' >a.info; }
# A collector that is started again if its status is 1, as README does. Its statuses go to SPOOL.ended.
serve_spool() { # SPOOL COMMAND...
    daemon serve_again "$@"
    until [ -s "$1/pids" ]; do sleep 0.1; done
}
serve_again() {
    local spool=$1 pid='' ended=1
    shift
    trap 'kill "$pid" 2>/dev/null; wait "$pid"; exit 0' TERM
    while [ $ended -eq 1 ]; do
        "$@" "$collector" start "$spool" 2>>"$spool.said" &
        pid=$!
        ended=0
        wait "$pid" 2>/dev/null || ended=$?
        echo $ended >>"$spool.ended"
    done
}
# What README writes for a job that must not lose its file, with shorter pauses.
# shellcheck disable=SC2016 # the inner shell expands them
patient_give() {
    call "${as[@]}" timeout 30 bash -c 'until "$0" give "$@"; do s=$?; [ $s -eq 1 ] || exit $s; sleep 0.2; done' "$collector" "$@"
}
as=()

@test "a start that can't succeed" {
    local name
    echo >file
    for name in file file/spool; do
        call timeout 10 "$collector" start $name
        ended 2 "collector: start $name, where file is a file"
        says "$work/err" 'collector: and why' "collector: $PWD/file isn't a folder"
    done
    mkdir -p one/wake two/lock three
    echo >three/in
    for name in one/wake two/lock three/in; do
        call timeout 10 "$collector" start ${name%/*}
        ended 2 "collector: start of a folder with another $name"
        says "$work/err" 'collector: and why' "collector: $PWD/$name can't be written"
    done
    call timeout 10 bash -c 'until "$0" start file || [ $? -eq 2 ]; do sleep 0.2; done' "$collector"
    ended 0 'collector: the loop of README ends'
}

@test "a call that can't succeed" {
    local via name
    one_file
    serve_spool spool env
    call "$collector" give spool --key '' a.info
    ended 2 'collector: an empty key'
    says "$work/err" 'collector: and why' 'collector: --key needs a value'
    call "$collector" give spool --bytes '' --key k a.info
    ended 2 'collector: an empty length'
    call "$collector" give --via '' --key k a.info
    ended 2 'collector: an empty command'
    holds 'collector: nothing of this was accepted' [ -z "$(ls spool/accepted)" ]

    mkdir folder
    patient_give --via "$collector answer $PWD/folder" --key k a.info
    ended 2 'collector: the loop of README ends where --via leads to a folder that is no spool'
    says "$work/err" 'collector: and why' "collector: no spool there, or not for this user: $collector answer $PWD/folder"
    call "$collector" summary --via "$collector answer $PWD/folder"
    ended 2 'collector: a question to it'
    daemon socat -t 20 UNIX-LISTEN:"$PWD/s",fork EXEC:"$collector answer $PWD/folder" 2>socat.said
    until [ -S s ]; do sleep 0.1; done
    patient_give --via "socat -t 20 - UNIX-CONNECT:$PWD/s" --key k a.info
    ended 2 'collector: the loop of README ends there over a socket too'
    call "$collector" summary --via "socat -t 20 - UNIX-CONNECT:$PWD/s"
    ended 2 'collector: a question to it over a socket'
    patient_give --via no-such-command --key k a.info
    ended 2 "collector: a command that isn't there"
    # As ssh ends where the machine doesn't answer, or socat where nobody listens yet.
    for via in 'exit 255' false true; do
        call "$collector" give --via "$via" --key k a.info
        ended 1 "collector: no answer from $via, which another time may have one"
    done
    # Without the script, one line says it.
    call bash -c "{ echo 'give k 41'; cat a.info; } | $collector answer $PWD/folder"
    says "$work/out" 'collector: what a client without the script reads' missing
    holds 'collector: nothing was made in that folder' [ -z "$(ls -A folder)" ]
    quietly "$collector" stop spool
}

# find fails if a file that it is about to remove has gone, which a client may do at any time.
@test "a file that goes while old ones are removed" {
    one_file
    mkdir tools
    printf '#!/bin/sh\necho "find: no such file" >&2\nexit 1\n' >tools/find
    chmod +x tools/find
    serve_spool spool env PATH="$PWD/tools:$PATH"
    call env COLLECTOR_WAIT=5 "$collector" give spool --key k a.info
    says "$work/out" 'collector: takes a file all the same' 'accepted k items 2 odd 0'
    call env COLLECTOR_WAIT=5 timeout 20 "$collector" stop spool
    for _ in {1..50}; do [ ! -s spool.ended ] || break; sleep 0.1; done
    holds 'collector: and never ended before it was stopped' [ "$(<spool.ended)" = 0 ]
}

# The folders above are mktemp's, which others may not search.
open_up() {
    [ "$(id -u)" -eq 0 ] || return 1
    chmod o+x ${CHECKS_RUN+"$CHECKS_RUN"} "$BATS_RUN_TMPDIR" "$BATS_RUN_TMPDIR"/test "$work"
    install -m 755 "$COVCOLLECT" program
    install -m 755 "$collector" collector
    export COVCOLLECT=$PWD/program
    collector=$PWD/collector
    "${nobody[@]}" "$COVCOLLECT" --version >/dev/null
}
nobody=(setpriv --reuid=nobody --regid=nogroup --clear-groups)

@test "other users" {
    local verb
    open_up || { not_tried 'collector: calls of other users, which only root can make'; return 0; }
    one_file
    chmod 644 a.info
    mkdir roots theirs
    chown nobody:nogroup theirs
    call "${nobody[@]}" "$collector" start "$PWD/roots"
    ended 2 'collector: start without permission'
    says "$work/err" 'collector: and why' "collector: $PWD/roots can't be written"
    call "${nobody[@]}" "$collector" start "$PWD/roots/new"
    ended 2 "collector: start where the folder can't be made"
    holds 'collector: and nothing is made' [ -z "$(ls -A roots)" ]

    mkdir drop
    chmod 1733 drop
    serve_spool drop/spool "${nobody[@]}"
    call "${nobody[@]}" "$collector" stop drop/spool
    ended 0 'collector: a folder to write into, and not to read, is enough for a new spool'

    serve_spool roots/spool env
    as=("${nobody[@]}")
    patient_give roots/spool --key k a.info
    ended 2 'collector: the loop of README ends at the spool of another user'
    says "$work/err" 'collector: and why' "collector: $PWD/roots/spool is the spool of root: call as that user, or by --via"
    for verb in report summary stop; do
        call "${nobody[@]}" timeout 10 "$collector" $verb roots/spool
        ended 2 "collector: $verb of it"
    done
    call bash -c "{ echo 'give k 41'; cat a.info; } | ${nobody[*]} $collector answer $PWD/roots/spool"
    says "$work/out" 'collector: answer for it' missing
    chmod 700 roots/spool
    patient_give roots/spool --key k a.info
    ended 2 'collector: the loop of README ends at a folder that others may not search'
    says "$work/err" 'collector: and why' "collector: $PWD/roots/spool: no permission"
    call "$collector" give roots/spool --key k a.info
    says "$work/out" 'collector: its own user goes on' 'accepted k items 2 odd 0'
    quietly "$collector" stop roots/spool

    # Root may do all, but what it made the session couldn't read.
    serve_spool theirs "${nobody[@]}"
    call timeout 60 "$collector" give theirs --key k a.info
    ended 2 "collector: root's give into the spool of another user"
    says "$work/err" 'collector: and why' "collector: $PWD/theirs is the spool of nobody: call as that user, or by --via"
    holds 'collector: nothing of it is in the spool' [ -z "$(find theirs/{new,in,accepted,refused} -type f)" ]
    for verb in report summary stop; do
        call timeout 10 "$collector" $verb theirs
        ended 2 "collector: root's $verb of it"
    done
    call timeout 20 "$collector" give --via "${nobody[*]} $collector answer $PWD/theirs" --key k a.info
    says "$work/out" 'collector: root gives by --via, as that user' 'accepted k items 2 odd 0'
    # What root puts there without the script.
    install -m 600 a.info theirs/in/odd@id
    until [ -e theirs/out/id ]; do sleep 0.1; done
    says theirs/out/id 'collector: a file in the spool that the session may not read' unreadable
    call "${nobody[@]}" "$collector" give theirs --key k2 "$PWD/a.info"
    says "$work/out" 'collector: the session goes on after it' 'accepted k2 items 2 odd 0'
    call "${nobody[@]}" "$collector" stop theirs
    ended 0 'collector: its user stops it'
    until [ -s theirs.ended ]; do sleep 0.1; done
    holds 'collector: the session never died meanwhile' [ "$(<theirs.ended)" = 0 ]
    call timeout 10 "$collector" start theirs
    ended 2 "collector: root's start of the spool of another user"
    says "$work/err" 'collector: and why' "collector: $PWD/theirs is the spool of nobody: call as that user, or by --via"
}

# A wrong length would leave a part of the file unread, and nobody would know.
@test "more bytes than were announced" {
    local via
    one_file
    serve_spool spool env
    call bash -c '"$0" give spool --key long --bytes 40 <a.info' "$collector"
    ended 4 'collector: a byte more than --bytes says'
    says "$work/err" 'collector: and why' 'long: not whole: fewer or more bytes came than were announced, or it is still being written'
    call bash -c '{ cat a.info; sleep 1; printf "\0"; } | "$0" give spool --key late --bytes 41' "$collector"
    ended 4 'collector: a byte more that comes a second later'
    via="$collector answer $PWD/spool"
    call bash -c "{ echo 'give long 40'; cat a.info; } | $via"
    says "$work/out" 'collector: the same without the script' unfinished
    holds 'collector: nothing of this was accepted' [ -z "$(ls spool/accepted)" ]
    # Who keeps the connection open has sent all that was announced.
    call timeout 30 bash -c "{ echo 'give open 41'; cat a.info; sleep 20; } | $via"
    says "$work/out" 'collector: a client that keeps its connection open' 'accepted open items 2 odd 0'
    call "$collector" give spool --key none --bytes 0
    ended 5 'collector: no byte, as was announced, is a file without a record'
    quietly "$collector" stop spool
}

# What a stranger leaves in the spool is told and stays, and the collector goes on, also after a restart.
@test "folders and other strange things in the spool" {
    local name strange=(in/folder in/folder@id in/@folder in/link@id in/nowhere@id in/pipe@id in/file 'in/a b@id' accepted/folder)
    one_file
    serve_spool spool env
    call "$collector" give spool --key first a.info
    mkdir spool/in/folder spool/in/folder@id spool/in/@folder spool/accepted/folder
    ln -s "$PWD/a.info" spool/in/link@id
    ln -s nothing spool/in/nowhere@id
    mkfifo spool/in/pipe@id
    cp a.info spool/in/file
    cp a.info 'spool/in/a b@id'
    call env COLLECTOR_WAIT=20 timeout 30 "$collector" give spool --key second a.info
    says "$work/out" 'collector: strange things in the spool: a file is accepted' 'accepted second items 2 odd 0'
    call env COLLECTOR_WAIT=20 "$collector" give spool --key folder a.info
    says "$work/err" 'collector: a key whose name is a folder' 'a.info: differs from the file that was accepted with this key'
    call env COLLECTOR_WAIT=20 "$collector" stop spool
    for _ in {1..50}; do [ ! -s spool.ended ] || break; sleep 0.1; done
    holds 'collector: and it never ended before it was stopped' [ "$(cat spool.ended)" = 0 ]
    for name in "${strange[@]}"; do
        [ "$name" != accepted/folder ] || continue
        holds "collector: $name is told once" [ "$(grep -cxF "collector: $PWD/spool/$name isn't a file that a job handed in: it is passed over" spool.said)" -eq 1 ]
    done
    serve_spool spool env
    call env COLLECTOR_WAIT=20 timeout 30 "$collector" summary spool
    says "$work/out" 'collector: started again beside them' '  lines......: 50.0% (1 of 2 lines)'
    says spool.said 'collector: a folder among the accepted files is told' "collector: $PWD/spool/accepted/folder isn't a file that a job handed in: it is passed over"
    for name in "${strange[@]}"; do
        holds "collector: $name stays" [ -e "spool/$name" -o -L "spool/$name" ]
    done
    quietly "$collector" stop spool
}

@test "a disk that is nearly full" {
    local number
    [ "$(id -u)" -eq 0 ] && quietly unshare --mount true || { not_tried 'collector: a full disk, which only root can mount'; return 0; }
    one_file
    # 4,000 sources: 126,893 bytes, and some 200,000 in a report. By hand: 4,000 of 4,000 lines.
    for ((number = 1; number <= 4000; number++)); do printf 'SF:/s/%d\nDA:1,1\nend_of_record\n' $number; done >many.info
    mkdir disk
    # In a namespace of its own, so that the mount goes with its processes.
    cat >inside <<'INSIDE'
collector=$1
export COLLECTOR_WAIT=20
mount -t tmpfs -o size=300k none disk || exit 77
{ "$collector" start disk/spool; echo $? >ended; } 2>start.said &
until [ -s disk/spool/pids ]; do sleep 0.1; done
try() { # NAME COMMAND...
    local status=0 name=$1
    shift
    "$collector" "$@" >$name.out 2>$name.err || status=$?
    echo $status >$name.status
}
try many give disk/spool --key many many.info
try report report disk/spool
try summary summary disk/spool
try extract extract disk/spool /s/4000
try small give disk/spool --key small a.info
# Not even room for a line: a file that is already there waits, and others can't come.
feeder=$(cut -d' ' -f1 disk/spool/pids)
kill -STOP "$feeder"
try waits give disk/spool --key waits a.info &
until [ -n "$(find disk/spool/in -name 'waits@*')" ]; do sleep 0.1; done
cat many.info many.info many.info >disk/rest 2>/dev/null
kill -CONT "$feeder"
COLLECTOR_WAIT=2 try none give disk/spool --key none a.info
COLLECTOR_WAIT=2 try asked summary disk/spool
ls disk/spool/accepted >accepted
rm disk/rest
wait $!
try again summary disk/spool
try stop stop disk/spool
wait
INSIDE
    call timeout 200 unshare --mount bash inside "$collector"
    [ "$status" -ne 77 ] || { not_tried "collector: a full disk, since mount isn't permitted here"; return 0; }
    holds 'collector: a file on a small disk' grep -qx 'accepted many items 4000 odd 0' many.out
    holds 'collector: a report that has no room' [ "$(<report.status)" -eq 1 ]
    says report.err 'collector: and why' "collector: no room for the answer on the collector's disk: ask again when there is"
    holds 'collector: with nothing on standard output' [ ! -s report.out ]
    says start.said 'collector: the collector says so too' "collector: no room in $PWD/disk/spool"
    says summary.out 'collector: it goes on: a summary' '  lines......: 100.0% (4000 of 4000 lines)'
    printf '%s\n' TN: SF:/s/4000 DA:1,1 LF:1 LH:1 end_of_record >wanted
    same wanted extract.out 'collector: and a part of the report'
    says small.out 'collector: and a small file' 'accepted small items 2 odd 0'
    holds 'collector: a file and a question where there is no room for a line' [ "$(<none.status):$(<asked.status)" = 1:1 ]
    holds 'collector: they end with no text' [ ! -s none.out -a ! -s asked.out ]
    says asked.err 'collector: and a sentence says why' "collector: no room for the question in $PWD/disk/spool/new: try again when there is"
    says none.err 'collector: also of the file' "collector: no room for the file in $PWD/disk/spool/new: try again when there is"
    holds 'collector: which is all that is said' [ "$(cat asked.err none.err | wc -l)" -eq 2 ]
    printf '%s\n' many small >wanted
    same wanted accepted 'collector: a file that was there already waits'
    says waits.out 'collector: and is accepted when there is room again' 'accepted waits items 2 odd 0'
    # Not 100.0%, since a line is missing.
    says again.out 'collector: a summary then' '  lines......: 99.9% (4001 of 4002 lines)'
    holds 'collector: which was the same session all the time' [ "$(<stop.status):$(cat ended):$(grep -c 'files again' start.said)" = 0:0:1 ]
}
