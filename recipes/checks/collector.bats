#!/usr/bin/env bats
# collector: what it takes and refuses, after it was killed, for want of memory, and from other machines.
#
# need socat socat
# need openssh-server test -x /usr/sbin/sshd
# need openssh-client ssh
# need systemd systemd-socket-activate

load common
load projects

collector=$recipes/collector/collector

# Runs a collector as systemd would: if it dies, it is started again. What it says goes to SPOOL.said.
serve_spool() { daemon serve_again "$@"; } # SPOOL COMMAND...
serve_again() {
    local spool=$1 pid=''
    shift
    trap 'kill "$pid" 2>/dev/null; wait "$pid"; exit 0' TERM
    while :; do
        "$@" "$collector" start "$spool" 2>>"$spool.said" &
        pid=$!
        ! wait "$pid" 2>/dev/null || break
    done
}
# Two equal tracefiles, and a broken one.
files() {
    printf 'TN:t\nSF:/a.c\nDA:1,2\nDA:2,0\nend_of_record\n' | tee a.info >b.info
    printf 'SF:/a.c\nDA:1,1\nDA:2\n' >broken.info
}

collector_by_hand() {
    local name pattern
    files
    call env COLLECTOR_WAIT=5 "$collector" give spool a.info
    ended 2 "collector: a spool that isn't there"
    serve_spool spool env
    until [ -s spool/pids ]; do sleep 0.1; done
    call "$collector" start spool
    ended 2 'collector: a second one on the same spool'

    call "$collector" give spool a.info
    ended 0 'collector: takes a file'
    holds 'collector: and says what is in it' grep -qE '^accepted f\.a\.info\.[0-9a-f]{40} items 2 odd 0$' "$work/out"
    call "$collector" give spool a.info
    ended 0 'collector: is asked again with the same file'
    call "$collector" give spool b.info
    ended 0 'collector: the equal file of another job'
    call "$collector" give spool --key job-1 a.info
    says "$work/out" 'collector: a key of the client' 'accepted job-1 items 2 odd 0'
    call "$collector" give spool --key job-1 b.info
    says "$work/out" 'collector: the same key and bytes again' 'accepted job-1 again'
    printf 'SF:/a.c\nDA:1,7\nend_of_record\n' >other.info
    call "$collector" give spool --key job-1 other.info
    ended 4 'collector: a used key with another file'
    says "$work/err" 'collector: and why' 'other.info: differs from the file that was accepted with this key'

    # What holds nothing, is broken, or isn't of the same source.
    : >empty.info
    printf '<html>\n404\n' >page.info
    for name in empty.info page.info; do
        call "$collector" give spool $name
        ended 5 "collector: $name"
        says "$work/err" 'collector: and why' "$name: no record in it (items 0): is it empty, or no tracefile?"
    done
    call "$collector" give spool broken.info
    ended 4 'collector: a broken tracefile'
    says "$work/err" 'collector: in the words of a merge' 'broken.info: refused BadLine at 3'
    printf 'SF:/v.c\nDA:1,1,abc\nend_of_record\n' >v1.info
    printf 'SF:/v.c\nDA:1,1,abd\nend_of_record\n' >v2.info
    call "$collector" give spool v1.info
    call "$collector" give spool v2.info
    ended 4 'collector: another version of a source'
    says "$work/err" 'collector: in the words of a merge, too' 'v2.info: clash /v.c 1 abc abd'
    call "$collector" give spool none.info
    ended 2 "collector: a file that isn't there"
    # One byte more than a text may have.
    truncate -s 67108865 large.info
    call "$collector" give spool large.info
    ended 4 'collector: a file above 64 MiB'
    says "$work/err" 'collector: and why' 'large.info: refused TooLong'
    rm large.info
    # A line that would end the text, and a last line that isn't ended.
    printf 'SF:/dot.c\n.\r\nDA:1,1\n.\nreport\nend_of_record\n.' >dot.info
    call "$collector" give spool dot.info
    ended 0 'collector: lines with a dot alone'
    printf 'SF:/dot.c\n.\nDA:x\n' >dot2.info
    call "$collector" give spool dot2.info
    says "$work/err" 'collector: the numbers of lines stay behind such a line' 'dot2.info: refused BadLine at 3'
    printf 'SF:/end.c\nDA:1,1\nend_of_record' >end.info
    call "$collector" give spool end.info
    ended 0 'collector: a last line without a line feed'

    # Standard input: a pipe that breaks looks like the end of a file, so its length is told.
    call bash -c '"$0" give spool <a.info' "$collector"
    ended 2 'collector: standard input without a key'
    call bash -c 'head -c 20 a.info | "$0" give spool --key cut --bytes 41' "$collector"
    ended 4 'collector: a pipe that breaks'
    call bash -c '"$0" give spool --key pipe --bytes 41 <a.info' "$collector"
    says "$work/out" 'collector: a whole pipe' 'accepted pipe items 2 odd 0'
    call "$collector" give spool --key ../x a.info
    ended 2 'collector: a key that is none'

    # By hand: a.c four times, from a.info, b.info, job-1 and pipe.
    cat >wanted <<'WANTED'
TN:
SF:/dot.c
DA:1,1
LF:1
LH:1
end_of_record
TN:
SF:/end.c
DA:1,1
LF:1
LH:1
end_of_record
TN:
SF:/v.c
DA:1,1,abc
LF:1
LH:1
end_of_record
TN:t
SF:/a.c
DA:1,8
DA:2,0
LF:2
LH:1
end_of_record
WANTED
    { tail -n 7 wanted; head -n -7 wanted; } >report.wanted
    call "$collector" report spool
    ended 0 'collector: the report'
    same report.wanted "$work/out" 'collector: which is the one that was worked out by hand'
    call "$collector" extract spool '/[de]*'
    head -n 12 wanted >extract.wanted
    same extract.wanted "$work/out" 'collector: a part of it'
    call "$collector" remove spool '/[!a]*'
    tail -n 7 wanted >remove.wanted
    same remove.wanted "$work/out" 'collector: the rest'
    pattern=$(printf '%01025d' 7)
    call "$collector" extract spool "$pattern"
    ended 2 'collector: a pattern of 1,025 bytes'
    call "$collector" remove spool "$pattern"
    ended 2 'collector: the same to remove'
    call "$collector" extract spool ''
    ended 0 'collector: an empty pattern'
    holds 'collector: which matches no file' [ ! -s "$work/out" ]
    call "$collector" extract spool "${pattern#0}"
    ended 0 'collector: one of 1,024 bytes'
    call "$collector" extract spool $'/a.c\nreport'
    ended 2 'collector: a pattern of two lines'
    call "$collector" summary spool
    says "$work/out" 'collector: the summary' '  lines......: 80.0% (4 of 5 lines)'

    call "$collector" stop spool
    ended 0 'collector: stop'
    call "$collector" report spool
    ended 1 'collector: a question after that'
    call env COLLECTOR_WAIT=1 "$collector" give spool --key late a.info
    ended 1 'collector: a file after that'
    sed -i 's/^DA:1,8/DA:1,10/' report.wanted
    serve_spool spool env
    call "$collector" give spool --key late a.info
    holds 'collector: started again, it takes that file' grep -qxE 'accepted late (again|items 2 odd 0)' "$work/out"
    call "$collector" report spool
    same report.wanted "$work/out" 'collector: and the report is that of all files, old and new, that one once'
    quietly "$collector" stop spool
}
@test "files by hand" {
    collector_by_hand
}

@test "a spool that is removed, and tools that are missing" {
    local pid name
    files
    daemon "$collector" start gone 2>gone.first
    pid=${daemons[-1]}
    until grep -q 'files again$' gone.first; do sleep 0.1; done
    rm -r gone
    serve_spool gone env
    until [ -s gone/pids ]; do sleep 0.1; done
    call "$collector" give gone --key job-1 a.info
    says "$work/out" 'collector: a spool in place of one that was removed takes files' 'accepted job-1 items 2 odd 0'
    status=0
    wait $pid || status=$?
    cp gone.first "$work/err"
    ended 2 'collector: that of the removed spool ends'
    says gone.first 'collector: and why' "collector: $PWD/gone was removed while its collector ran, which ends now"
    call "$collector" give gone --key job-2 a.info
    says "$work/out" 'collector: the other goes on' 'accepted job-2 items 2 odd 0'
    quietly "$collector" stop gone

    mkdir tools
    for name in flock realpath sha256sum sync timeout find mkfifo sed setsid; do ln -s "$(command -v $name)" tools; done
    call env PATH="$PWD/tools" "$BASH" "$collector" start without
    ended 2 'collector: start where cmp is missing'
    says "$work/err" 'collector: which is named' "collector: cmp isn't there"
    holds 'collector: and no spool is made' [ ! -e without ]
}

# Whether the session that was started again has gone on to another file than the one at which the first was killed.
goes_on() { # SPOOL
    local count
    count=$(sed -n 's/.*: read \([0-9]*\) files again$/\1/p' "$1.said" | sed -n 2p)
    [ -n "$count" ] && [ "$(find "$1/accepted" -type f | wc -l)" -gt "$count" ]
}

@test "clients, the session and its feeder are killed" {
    local writer number pid status killed=0 again=() gone=() in=0 writers=() asker span=600 try
    for ((writer = 0; writer < 8; writer++)); do
        tracefiles "writers/$writer" $((writer * 50 + 1)) $((writer * 50 + 50))
    done
    mkdir -p victims reports
    for ((number = 1; number <= 60; number++)); do
        { printf 'TN:v\nSF:/victim/%d.c\n' $number; seq -f 'DA:%.0f,1' $((number % 2 * 40000 + 3)); echo end_of_record; } >victims/$number.info
    done
    serve_spool storm env
    until [ -s storm/pids ]; do sleep 0.1; done
    for ((writer = 0; writer < 8; writer++)); do
        for ((number = writer * 50 + 1; number <= writer * 50 + 50; number++)); do
            ! "$collector" give storm "writers/$writer/f $number.info" >>"told.$writer" 2>&1 || echo >>"count.$writer"
        done </dev/null 3>&- &
        writers+=($!)
    done
    # Reports while this goes on: each reads back as what it is.
    (
        number=0
        until [ -e storm.over ]; do
            if "$collector" report storm >reports/part 2>/dev/null; then
                number=$((number + 1))
                mv reports/part reports/$number.info
            fi
            sleep 0.5
        done
        rm -f reports/part
    ) 3>&- &
    asker=$!
    # Clients that are killed with all that they started, at some moment of the time that they take: about half of them are done before.
    for ((number = 1; number <= 60 && killed < 12; number++)); do
        setsid "$collector" give storm victims/$number.info >/dev/null 2>&1 </dev/null 3>&- &
        pid=$!
        sleep "0.$(printf '%03d' $((RANDOM % span)))"
        kill -9 -- "-$pid" 2>/dev/null || true
        status=0
        wait $pid 2>/dev/null || status=$?
        case $status in
            137) killed=$((killed + 1)) gone+=("$number"); [ $span -gt 900 ] || span=$((span + 40)) ;;
            0) again+=("victims/$number.info") span=$((span * 2 / 3 + 10)) ;;
            *) verdict 1 "collector: a client that wasn't killed ended with status $status" ;;
        esac
        # The session dies, then its feeder, but not at the same file, which would be refused.
        if [ $killed -eq 6 ] && [ ! -e feeder.killed ]; then
            for ((try = 0; try < 600; try++)); do
                ! goes_on storm && [ "$(cat count.* 2>/dev/null | wc -l)" -lt 400 ] || break
                sleep 0.1
            done
        fi
        case $killed in
            3) [ -e session.killed ] || ! kill -9 "$(cut -d' ' -f2 storm/pids)" 2>/dev/null || : >session.killed ;;
            6) [ -e feeder.killed ] || ! kill -9 "$(cut -d' ' -f1 storm/pids)" 2>/dev/null || : >feeder.killed ;;
        esac
    done
    holds 'collector: 12 clients were killed, and the session and its feeder too' [ "$killed:$(ls ./*.killed | wc -l)" = 12:2 ]
    for pid in "${writers[@]}"; do wait "$pid"; done
    : >storm.over
    wait $asker
    holds 'collector: all 400 files of the others were told accepted' [ "$(cat count.* | wc -l)" -eq 400 ]
    holds 'collector: each of them once' [ "$(cat told.* | grep -c ' items ')" -eq "$(cat told.* | cut -d' ' -f2 | sort -u | wc -l)" ]
    holds 'collector: there were reports meanwhile' [ -e reports/2.info ]
    status=0
    for number in reports/*.info; do
        "$COVCOLLECT" merge "$number" | cmp -s - "$number" || status=1
    done
    verdict $status 'collector: and each of them was a whole one'
    # Every second of those that were killed asks again.
    for ((number = 0; number < killed; number += 2)); do
        call "$collector" give storm "victims/${gone[number]}.info"
        [ "$status" -ne 0 ] || again+=("victims/${gone[number]}.info")
    done
    call "$collector" report storm
    cp "$work/out" report.info
    # The others count or don't, as the report says; it must be the merge of whole files, each of them once.
    for ((number = 1; number < killed; number += 2)); do
        ! grep -qx "SF:/victim/${gone[number]}.c" report.info || { again+=("victims/${gone[number]}.info"); in=$((in + 1)); }
    done
    "$COVCOLLECT" merge -- writers/*/*.info "${again[@]}" >one.info
    same one.info report.info "collector: the report is the merge of the accepted files, byte for byte (of 6 that were killed and didn't ask again, $in)"
    quietly "$collector" stop storm
    serve_spool storm env
    until [ -s storm/pids ]; do sleep 0.1; done
    call "$collector" report storm
    same one.info "$work/out" 'collector: started again, it prints the same bytes'
    quietly "$collector" stop storm
    # One start may serve for both that were killed.
    holds 'collector: the session and its feeder were started again' [ "$(grep -c 'read .* files again' storm.said)" -ge 3 ]
}

# A session reads version 1 alone, so the collector converts what is of LCOV 2. Expected is what the filter makes of it.
@test "tracefiles of LCOV 2" {
    local name number
    files
    # The program, whose conversions write a part and end with the status that is in the file fail, while there is one.
    cat >frail <<END
#!/bin/bash
if [[ " \$* " == *' --lcov2 '* ]] && read -r status 2>/dev/null <"$PWD/fail"; then
    printf 'SF:/part.c\nDA:1,1\nend_of_record\nSF:/pa'
    [ \$status -lt 128 ] || { rm "$PWD/fail"; kill -9 \$\$; }
    [ \$status -ne 3 ] || echo 'out of memory' >&2
    exit \$status
fi
exec "$COVCOLLECT" "\$@"
END
    chmod +x frail
    printf 'TN:t\nSF:/b.c\nFNL:0,1,5\nFNA:0,3,f\nFNA:0,0,g\nFNF:1\nFNH:1\nBRDA:2,e0,0,1\nDA:2,3\nend_of_record' >indexed.new
    printf '# c\nTN:t\nSF:/b.c\nFN:1,5,f\nFNDA:2,f\nBRDA:3,0,jump to 4,2\nBRDA:3,0,jump to 7,0\nDA:2,3\nend_of_record\n' >ended.new
    printf 'SF:/c.c\nDA:1,1\nend_of_record\nSF:/c.c\nBRDA:1,U0,0,1\nDA:1,2\nend_of_record\n' >marked.new
    # Of version 1, with a total that doesn't fit and carriage returns: nothing to convert.
    printf 'SF:/d.c\r\nFN:1,f\r\nFNDA:1,f\r\nFNF:7\r\nBRDA:1,0,0,1\r\nBRDA:1,0,1,-\r\nDA:1,1\r\nend_of_record\r\n' >plain.new
    serve_spool newer env COVCOLLECT="$PWD/frail"
    until [ -s newer/pids ]; do sleep 0.1; done
    call "$collector" give newer --key indexed indexed.new
    says "$work/out" 'collector: a tracefile of LCOV 2 is converted: two functions, a branch and a line' 'accepted indexed items 6 odd 0'
    call "$collector" give newer --key indexed indexed.new
    says "$work/out" 'collector: the same again' 'accepted indexed again'
    holds 'collector: the spool has the file as it was given' cmp -s indexed.new newer/accepted/indexed
    for name in ended marked plain; do
        call "$collector" give newer --key $name $name.new
        ended 0 "collector: $name.new"
    done
    says "$work/out" 'collector: a tracefile of version 1 is handed on as it is' 'accepted plain items 5 odd 1'
    for name in indexed ended marked plain; do
        LC_ALL=C awk -f "$recipes/lcov2.awk" $name.new >$name.plain
    done
    "$COVCOLLECT" merge indexed.plain ended.plain marked.plain plain.plain >wanted
    call "$collector" report newer
    same wanted "$work/out" 'collector: the report is that of what the filter makes of them'
    call "$COVCOLLECT" merge --lcov2 newer/accepted/*
    same wanted "$work/out" 'collector: which is a merge of the accepted files'

    # What can't be converted is told in the words of the merge.
    printf 'SF:/a.c\nFNA:0,1,f\nDA:1,1\nend_of_record\n' >lost.new
    printf 'SF:/a.c\nFN:1,5,f\nDA:1,1,aaa\nDA:1,1,bbb\nend_of_record\n' >clash.new
    printf 'SF:/a.c\nFN:1,5,f\nDA:x\n' >bad.new
    printf 'SF:/a.c\nFNL:1,5\nend_of_record\n' >empty.new
    for name in 'lost.new: refused Misplaced at 2' 'clash.new: clash /a.c 1 aaa bbb' 'bad.new: refused BadLine at 3' \
        'empty.new: no record in it (items 0): is it empty, or no tracefile?'; do
        call "$collector" give newer "${name%%:*}"
        ended "$([[ $name == empty* ]] && echo 5 || echo 4)" "collector: ${name%%:*}"
        says "$work/err" 'collector: and why' "$name"
    done
    # It clashes with what is there.
    printf 'SF:/v.c\nDA:1,1,abc\nend_of_record\n' >v1.info
    printf 'SF:/v.c\nFN:1,5,f\nDA:1,1,abd\nend_of_record\n' >v2.new
    call "$collector" give newer --key v1 v1.info
    call "$collector" give newer v2.new
    says "$work/err" 'collector: one of another version of a source' 'v2.new: clash /v.c 1 abc abd'
    rm newer/accepted/v1
    quietly "$collector" stop newer

    # A conversion that fails in the middle leaves nothing, and the collector goes on.
    serve_spool newer env COVCOLLECT="$PWD/frail"
    until [ -s newer/pids ]; do sleep 0.1; done
    call "$collector" report newer
    same wanted "$work/out" 'collector: after a restart the report is the same'
    echo 3 >fail
    call "$collector" give newer --key hungry ended.new
    ended 3 'collector: no memory to convert a file'
    says "$work/err" 'collector: as it says' 'ended.new: no memory to convert it from LCOV 2'
    rm fail
    call "$collector" report newer
    same wanted "$work/out" 'collector: no part of it counts'
    # A conversion that is killed is tried again, by the next session.
    number=$(cut -d' ' -f2 newer/pids)
    echo 137 >fail
    call "$collector" give newer --key killed ended.new
    says "$work/out" 'collector: a conversion that is killed is done again' 'accepted killed items 5 odd 0'
    holds 'collector: by another session' [ "$(cut -d' ' -f2 newer/pids)" != "$number" ]
    says newer.said 'collector: it tells that it ended' "collector: killed@$(sed -n "s/^collector: killed@\([^:]*\):.*/\1/p" newer.said): 'covcollect merge --lcov2' ended with status 137; start it again"
    "$COVCOLLECT" merge indexed.plain ended.plain marked.plain plain.plain ended.plain >wanted
    call "$collector" report newer
    same wanted "$work/out" 'collector: it counts once'
    quietly "$collector" stop newer
    echo 3 >fail
    call env COVCOLLECT="$PWD/frail" "$collector" start newer
    ended 1 'collector: no memory to convert a file that was accepted: a start that is tried again'
    rm fail

    # A covcollect without --lcov2 gets the files as they are.
    old_program old
    serve_spool older env COVCOLLECT="$PWD/old"
    until [ -s older/pids ]; do sleep 0.1; done
    call "$collector" give older --key indexed marked.new
    says "$work/err" 'collector: a covcollect without --lcov2 refuses what it refused before' 'marked.new: refused BadLine at 5'
    quietly "$collector" stop older
}

# A file that takes more memory than there is doesn't end the collector for good.
@test "memory" {
    local enough=16384
    files
    seq 400000 | sed 's|.*|SF:/&\nDA:1,1\nend_of_record|' >hungry.info
    # The first of these limits, in KiB, within which a merge reads it. A quarter is too little.
    until bash -c 'ulimit -v "$1" && exec "$COVCOLLECT" merge -o hungry.merged hungry.info' - $enough 2>/dev/null 3>&- 4>&-; do
        enough=$((2 * enough))
    done
    serve_spool memory bash -c "ulimit -v $((enough / 4)) && exec \"\$@\"" limited
    until [ -s memory/pids ]; do sleep 0.1; done
    call "$collector" give memory --key first a.info
    ended 0 'collector: a file within a limit of memory'
    call "$collector" give memory hungry.info
    ended 3 'collector: a file that takes more memory'
    says "$work/err" 'collector: and why' 'hungry.info: the session died twice while it read this file (memory?)'
    call "$collector" give memory --key second b.info
    ended 0 'collector: goes on after that'
    call "$collector" report memory
    printf 'TN:t\nSF:/a.c\nDA:1,4\nDA:2,0\nLF:2\nLH:1\nend_of_record\n' >wanted
    same wanted "$work/out" 'collector: with what it had'
    says memory.said 'collector: the session had really ended for want of memory' \
        'collector: the session ended with status 3 (3: memory, or its history is full; 137: killed); start it again'
    quietly "$collector" stop memory
}

@test "sockets, systemd and ssh" {
    local port number pids=() here=$PWD via
    files
    serve_spool afar env
    until [ -s afar/pids ]; do sleep 0.1; done
    # A socat that was killed left its socket.
    socat UNIX-LISTEN:"$here/s.sock" - >/dev/null 2>&1 </dev/null 3>&- &
    number=$!
    until [ -S s.sock ]; do sleep 0.1; done
    kill -9 $number
    wait $number 2>/dev/null || true
    daemon socat -t 60 "UNIX-LISTEN:$here/s.sock,fork,unlink-early,mode=660,group=$(id -gn)" "EXEC:$collector answer $here/afar" 2>socat.said
    until [ "$(stat -c %a s.sock 2>/dev/null)" = 660 ]; do sleep 0.1; done
    via="socat -t 60 - UNIX-CONNECT:$here/s.sock"
    # The numbers 1 to 8 are the sources 0 to 3, two each.
    tracefiles afar.in 1 8
    for number in {1..8}; do
        "$collector" give --via "$via" "afar.in/f $number.info" >>afar.told 2>&1 3>&- &
        pids+=($!)
    done
    for number in "${pids[@]}"; do wait "$number" || true; done
    holds 'collector: eight clients at once over a socket' [ "$(grep -cE '^accepted .* items 6 odd 0$' afar.told)" -eq 8 ]
    # A file that grows meanwhile.
    yes "$(<a.info)" 2>/dev/null | head -n 15000 >growing.info || true
    (until [ -e grown ]; do echo >>growing.info; done) 3>&- &
    number=$!
    call "$collector" give --via "$via" growing.info
    : >grown
    wait $number
    ended 4 'collector: a file that is still being written'
    call "$collector" give --via "$via" broken.info
    ended 4 'collector: a broken tracefile over a socket'
    says "$work/err" 'collector: in the words of a merge' 'broken.info: refused BadLine at 3'
    # Without the script.
    call bash -c "{ echo 'give raw 41'; cat a.info; } | $via"
    says "$work/out" 'collector: a client of two lines' 'accepted raw items 2 odd 0'
    call bash -c "{ echo 'give raw2 20'; cat broken.info; } | $via | grep '^accepted '"
    ended 1 'collector: and its status for a broken tracefile'
    call bash -c "{ echo 'give cut 41'; head -c 30 a.info; } | $via"
    says "$work/out" 'collector: a client that dies while it sends' unfinished
    call bash -c "echo stop | $via"
    says "$work/out" 'collector: nobody stops it over the socket' unknown
    "$COVCOLLECT" merge -- afar.in/*.info a.info >one.info
    call "$collector" report --via "$via"
    ended 0 'collector: the report over the socket'
    same one.info "$work/out" 'collector: which is the merge of the accepted files, byte for byte'

    # systemd's half: the units, and a socket with Accept=yes.
    mkdir units
    for number in covcollect.service covcollect-give.socket covcollect-give@.service; do
        sed "s|/usr/local/bin/collector|$collector|; s/=coverage\$/=$(id -un)/" "$recipes/collector/$number" >units/$number
    done
    call systemd-analyze verify units/covcollect.service units/covcollect-give.socket units/covcollect-give@.service
    holds "collector: systemd's units are fine" [ "$status:$(grep -c "$here/units" "$work/err")" = 0:0 ]
    daemon systemd-socket-activate --accept --inetd --listen="$here/u.sock" "$collector" answer "$here/afar" >/dev/null 2>&1
    until [ -S u.sock ]; do sleep 0.1; done
    call "$collector" give --via "socat -t 60 - UNIX-CONNECT:$here/u.sock" b.info
    ended 0 "collector: over systemd's socket"
    call "$collector" report --via "socat -t 60 - UNIX-CONNECT:$here/u.sock"
    "$COVCOLLECT" merge -- afar.in/*.info a.info b.info >one.info
    same one.info "$work/out" 'collector: the report over that'

    # ssh, with a key that can't do anything else, and with one that can.
    mkdir -p keys
    [ "$(id -u)" -ne 0 ] || mkdir -p /run/sshd
    for number in host jobs all; do ssh-keygen -q -t ed25519 -N '' -f keys/$number; done
    { printf 'command="%s answer %s",restrict %s\n' "$collector" "$here/afar" "$(<keys/jobs.pub)"; cat keys/all.pub; } >keys/authorized
    port=$(free_port $((20000 + RANDOM % 20000)))
    printf '%s\n' "Port $port" 'ListenAddress 127.0.0.1' "HostKey $here/keys/host" "AuthorizedKeysFile $here/keys/authorized" \
        'StrictModes no' 'UsePAM no' 'PermitRootLogin yes' 'PidFile none' "SetEnv COVCOLLECT=$COVCOLLECT" >keys/sshd
    daemon "$(command -v sshd || echo /usr/sbin/sshd)" -D -e -f keys/sshd 2>sshd.said
    until (: >"/dev/tcp/127.0.0.1/$port") 2>/dev/null; do sleep 0.1; done
    via="ssh -q -F none -o StrictHostKeyChecking=no -o UserKnownHostsFile=$here/keys/known -o IdentitiesOnly=yes -p $port"
    call "$collector" give --via "$via -i keys/jobs 127.0.0.1" --key over-ssh a.info
    says "$work/out" 'collector: over ssh, with a key that can hand in alone' 'accepted over-ssh items 2 odd 0'
    call bash -c "$via -i keys/all 127.0.0.1 $collector give $here/afar --key job-2 --bytes \$(wc -c <a.info) <a.info"
    says "$work/out" 'collector: over ssh, by the command there' 'accepted job-2 items 2 odd 0'
    call "$collector" summary --via "$via -i keys/jobs 127.0.0.1"
    says "$work/out" 'collector: the summary over ssh' '  functions..: 100.0% (4 of 4 functions)'
    quietly "$collector" stop afar
}
