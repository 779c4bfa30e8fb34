#!/usr/bin/env bats
# -o: FILE is replaced as a whole or stays as it was, whatever goes wrong. disk.c stands for a bad disk.
#
# need gcc gcc
# need libc6-dev test -f /usr/include/dlfcn.h

load common

lines=40000 # some 430,000 bytes: several writes

# The tracefile of one source whose lines all have this count, as it is printed.
text() { # COUNT
    awk -v count="$1" -v lines=$lines 'BEGIN {
        print "TN:t\nSF:/src/a.c"
        for (i = 1; i <= lines; i++) print "DA:" i "," count
        print "LF:" lines "\nLH:" lines "\nend_of_record"
    }'
}
# Tracefiles with the counts 1 to 4. A merge of some of them has the sum.
texts() {
    local count
    for count in 1 2 3 4; do
        text $count >"$work/$count.info"
    done
}
small() { printf 'TN:t\nSF:/src/%s.c\nDA:1,%d\nLF:1\nLH:%d\nend_of_record\n' "$1" "$2" $(($2 > 0)); } # NAME COUNT
rights() { stat -c %a "$1"; }

# A call that writes the sum of 1.info and 2.info into all.info, where 4.info was, with a disk that goes wrong.
onto_disk() { # HOW
    [ -f "$work/disk.so" ] || gcc -O2 -shared -fPIC -o "$work/disk.so" "$recipes/checks/disk.c" -ldl
    rm -f all.info*
    cp "$work/4.info" all.info
    call env LD_PRELOAD="$work/disk.so" DISK="$1" "$COVCOLLECT" merge -o all.info "$work/1.info" "$work/2.info"
}

@test "FILE is one of the inputs" {
    small a 2 >a.info
    small b 0 >b.info
    cp b.info c.info
    call "$COVCOLLECT" merge a.info b.info a.info --output a.info
    ended 0 'merge -o: into an input that is named twice'
    { small a 4; small b 0; } >wanted
    same wanted a.info 'merge -o: it has the sums'
    holds 'merge -o: nothing is printed' [ ! -s "$work/out" ]
    holds 'merge -o: nothing is told' [ ! -s "$work/err" ]
    call "$COVCOLLECT" merge -j 4 -o b.info c.info b.info c.info
    small b 0 >wanted
    same wanted b.info 'merge -o: with several jobs'
    call "$COVCOLLECT" remove -o a.info a.info '*/a.c'
    same wanted a.info 'remove -o: into its tracefile'
    call "$COVCOLLECT" extract a.info '*/a.c' -o a.info
    ended 0 'extract -o: of which nothing is left'
    same /dev/null a.info 'extract -o: the file is empty then'
    call "$COVCOLLECT" summary --json -oc.info c.info
    echo '{"lines":{"found":1,"hit":0},"functions":{"found":0,"hit":0},"branches":{"found":0,"hit":0}}' >wanted
    same wanted c.info 'summary -o: JSON in place of the tracefile'
    call "$COVCOLLECT" list --output=b.info b.info
    printf '%s\n' '     Lines   Functions    Branches  File' '  0.0% 0/1       - 0/0       - 0/0  /src/b.c' '  0.0% 0/1       - 0/0       - 0/0  Total' >wanted
    same wanted b.info 'list -o: the table in place of the tracefile'
    printf '        -:    0:Source:/src/a.c\n        7:    1:int main\n' >a.info
    call "$COVCOLLECT" gcov --test t -o a.info a.info
    small a 7 >wanted
    same wanted a.info "gcov -o: the tracefile in place of gcov's text"
    only 'covcollect -o: nothing else is left' . a.info b.info c.info wanted
}

# A merge in so many KiB onto a.info, in a copy of the folder if it is wanted that it succeeds. The name is the same in both, since a longer
# one takes more memory.
merge_within() { # KIB FILE
    local folder=.
    [ "$1" -lt "$least" ] || folder=$work/enough
    call bash -c 'cd "$3" && ulimit -v "$1" && exec "$COVCOLLECT" merge -o a.info "$2"' - "$1" "$2" "$folder"
}
# The least memory in which the program merges a file, in steps of 16 KiB. What the program takes may change with it.
least_memory() { # FILE
    local low=0 high=65536 middle least=0
    while [ $((high - low)) -gt 1 ]; do
        middle=$(((low + high) / 2))
        merge_within $((16 * middle)) "$1"
        if [ "$status" -eq 0 ]; then high=$middle; else low=$middle; fi
    done
    echo $((16 * high))
}

@test "a call that fails leaves FILE" {
    local least
    small a 2 >a.info
    printf 'SF:/src/b.c\nDA:1,1\n' >cut.info
    printf 'SF:/src/a.c\nDA:1,1,x\nend_of_record\n' >x.info
    printf 'SF:/src/a.c\nDA:1,1,y\nend_of_record\n' >y.info
    cp -r . "$work/before"
    cp -r . "$work/enough"
    call "$COVCOLLECT" merge -o a.info a.info none.info
    ended 1 'merge -o: an input is missing'
    says "$work/err" 'merge -o: which is told' "none.info: can't read"
    call "$COVCOLLECT" merge -j 3 -o cut.info a.info cut.info
    ended 4 'merge -o: an input is refused'
    call "$COVCOLLECT" merge -o x.info x.info y.info
    ended 4 'merge -o: checksums clash'
    call "$COVCOLLECT" summary --fail-under-lines 101 -o a.info a.info
    ended 2 'summary -o: a threshold that is none'
    call "$COVCOLLECT" merge -o a.info --output new.info a.info
    ended 2 'merge -o: twice'
    call "$COVCOLLECT" check -o a.info a.info
    ended 2 'check -o'
    text 1 >"$work/large.info"
    least=$(least_memory "$work/large.info")
    merge_within "$least" "$work/large.info"
    ended 0 "merge -o: $least KiB are enough"
    merge_within $((least - 16)) "$work/large.info"
    ended 3 'merge -o: 16 KiB less: no memory'
    call "$COVCOLLECT" merge -o new.info a.info cut.info
    ended 4 'merge -o: the same for a new file'
    call diff -r "$work/before" .
    ended 0 'covcollect -o: after all these all is as it was, and nothing new is there'
    call "$COVCOLLECT" summary --fail-under-lines 100 --fail-under-branches 0 -o a.info a.info
    ended 6 'summary -o: a rate that is too low'
    says "$work/err" 'summary -o: is told' 'branches: 0 of 0 is below 0%'
    says a.info 'summary -o: and the file is written' '  lines......: 100.0% (1 of 1 line)'
}

@test "rights and links" {
    local mask
    small a 1 >a.info
    for mask in 022 027 077; do
        call bash -c "umask $mask; exec \"\$COVCOLLECT\" merge -o new$mask a.info"
        holds "merge -o: a new file by umask $mask" [ "$(rights new$mask)" = "$(printf %o $((0666 & ~0$mask)))" ]
    done
    for mask in 640 604 444 600 755; do
        chmod $mask new077
        call "$COVCOLLECT" merge -o new077 a.info a.info
        holds "merge -o: rights of an old file, $mask" [ "$status:$(rights new077)" = 0:$mask ]
    done
    for mask in 4755 2755 6711; do
        chmod $mask new077
        call "$COVCOLLECT" merge -o new077 a.info a.info
        holds "merge -o: rights of an old file, $mask: no set-id bits" [ "$status:$(rights new077)" = 0:${mask#?} ]
    done
    mkdir folder
    cp a.info folder/real
    chmod 640 folder/real
    ln folder/real other
    ln -s folder/real link
    ln -s "$PWD/link" links
    call "$COVCOLLECT" merge -o links a.info links
    ended 0 'merge -o: a link to a link'
    holds 'merge -o: both links stay' [ "$(readlink links):$(readlink link)" = "$PWD/link:folder/real" ]
    small a 2 >wanted
    same wanted folder/real 'merge -o: the file that they lead to is written'
    holds 'merge -o: with its rights' [ "$(rights folder/real)" = 640 ]
    same a.info other 'merge -o: another name of the old file keeps the old bytes'
    only 'merge -o: nothing is left beside it' folder real
    ln -s folder/none dangling
    ln -s loop loop
    call "$COVCOLLECT" merge -o dangling a.info
    ended 1 'merge -o: a link that leads nowhere'
    says "$work/err" 'merge -o: is told' "dangling: can't write"
    call "$COVCOLLECT" merge -o loop a.info
    ended 1 'merge -o: a link to itself'
    holds 'merge -o: both stay' [ "$(readlink dangling):$(readlink loop)" = folder/none:loop ]
    only 'merge -o: and nothing is made' folder real
    call "$COVCOLLECT" merge -o folder a.info
    ended 1 'merge -o: a folder'
    if unshare -m true 2>/dev/null; then
        : >bound
        call unshare -m bash -c 'mount --bind a.info bound && exec "$COVCOLLECT" merge -o bound a.info'
        ended 1 'merge -o: a mount point'
        says "$work/err" 'merge -o: is told' "bound: can't write"
        holds 'merge -o: nothing is left beside it' [ -z "$(compgen -G 'bound.*')" ]
    else
        not_tried 'merge -o: a mount point: this user may not mount'
    fi
    call "$COVCOLLECT" merge -o $'no\nfolder/x\033' a.info
    ended 1 "merge -o: a folder that isn't there"
    says "$work/err" 'merge -o: control bytes of its name are shown' "no\\x0afolder/x\\x1b: can't write"
}

# A call that writes the sum of 1.info and 2.info, between two lines.
around() { # OPTION...
    echo before
    "$COVCOLLECT" merge "$@" "$work/1.info" "$work/2.info" 3>&- 4>&-
    echo after
}

@test "devices and pipes" {
    local device name program=$COVCOLLECT as=()
    texts
    # As root, a wrong program would take the machine's devices away.
    ! open_up || as=("${nobody[@]}")
    for device in null zero; do
        call "${as[@]}" "$program" merge -o /dev/$device "$work/1.info"
        ended 0 "merge -o /dev/$device"
        holds "merge -o /dev/$device: is still a device" [ -c /dev/$device ]
    done
    call "${as[@]}" "$program" merge -o /dev/full "$work/1.info"
    ended 1 'merge -o /dev/full'
    says "$work/err" 'merge -o /dev/full: is told' "/dev/full: can't write"
    holds 'merge -o /dev/full: is still a device' [ -c /dev/full ]
    "$COVCOLLECT" merge -o /dev/stdout "$work/1.info" "$work/2.info" 3>&- 4>&- | cat >piped
    same "$work/3.info" piped 'merge -o /dev/stdout: into a pipe'
    # Standard output itself, as without -o.
    { echo before; cat "$work/3.info"; echo after; } >wanted
    for name in /dev/stdout /dev/fd/1 /proc/self/fd/1; do
        around -o $name >log
        same wanted log "merge -o $name > FILE: the text is between what stands before and after"
        echo begin >log
        around -o $name >>log
        { echo begin; cat wanted; } >longer
        same longer log "merge -o $name >> FILE: the same, after what is there"
        around -o $name >log 2>&1
        same wanted log "merge -o $name > FILE 2>&1: as the first"
        call bash -c 'exec "$COVCOLLECT" merge -o "$1" "$2" >/dev/full' - $name "$work/1.info"
        ended 1 "merge -o $name: a full disk"
        says "$work/err" "merge -o $name: is told as without -o" 'write fault'
    done
    # Other streams are opened anew, and the text follows what is there.
    for name in /dev/stderr /dev/fd/2 /proc/self/fd/2; do
        around -o $name >>log.err 2>&1
        same wanted log.err "merge -o $name >> FILE 2>&1: the text is between what stands before and after"
        { echo before >&2; "$COVCOLLECT" merge -o $name "$work/1.info" "$work/2.info" 3>&- 4>&-; } 2>log
        head -n -1 wanted >longer
        same longer log "merge -o $name 2> FILE: the text follows what is there"
        rm log.err
    done
    rm log longer wanted
    mkfifo fifo
    daemon dd status=none if=fifo of=given bs=100
    call timeout 20 "$COVCOLLECT" merge -o fifo "$work/1.info" "$work/2.info"
    ended 0 'merge -o: a FIFO'
    wait "${daemons[0]}"
    same "$work/3.info" given 'merge -o: its reader has the text'
    holds 'merge -o: it is still a FIFO' [ -p fifo ]
    # A reader that goes away.
    daemon head -c 1 fifo
    call timeout 20 "$COVCOLLECT" merge -o fifo "$work/1.info"
    ended 1 'merge -o: a FIFO whose reader goes away'
    says "$work/err" 'merge -o: is told' "fifo: can't write"
    only 'merge -o: nothing is made beside them' . fifo given piped
}

@test "folders and files of others" {
    local program group old new name
    open_up || { not_tried 'merge -o: files of other users, which only root can make'; return 0; }
    small a 1 >a.info
    small b 1 >b.info
    { small a 1; small b 1; } >wanted
    chmod 644 a.info b.info
    mkdir shut sticky theirs
    cp a.info shut
    cp a.info sticky
    chmod 666 shut/a.info sticky/a.info
    chmod 1777 sticky
    call "${nobody[@]}" "$program" merge -o shut/a.info a.info b.info
    ended 1 'merge -o: a folder that may not be written'
    says "$work/err" 'merge -o: is told' "shut/a.info: can't write"
    call "${nobody[@]}" "$program" merge -o shut/new.info a.info b.info
    ended 1 'merge -o: the same for a new file'
    call "${nobody[@]}" "$program" merge -o sticky/a.info a.info b.info
    ended 1 "merge -o: another one's file in a sticky folder"
    same a.info shut/a.info 'merge -o: the file is as it was'
    same a.info sticky/a.info 'merge -o: that one too'
    only 'merge -o: and alone' shut a.info
    only 'merge -o: in both folders' sticky a.info
    chmod 700 shut
    call "${nobody[@]}" "$program" merge -o shut/a.info a.info b.info
    ended 1 'merge -o: a folder that may not be searched'
    # As mv does: the folder decides.
    install -m 400 a.info theirs/a.info
    chown -R nobody:nogroup theirs
    chown root:root theirs/a.info
    call "${nobody[@]}" "$program" merge -o theirs/a.info a.info b.info
    ended 0 "merge -o: a file that may not be written, in one's own folder"
    same wanted theirs/a.info 'merge -o: is replaced'
    holds 'merge -o: with its rights, by a file of the caller' [ "$(stat -c %a:%U theirs/a.info)" = 400:nobody ]
    only 'merge -o: and nothing else is there' theirs a.info
    # The group stays if the caller is in it; if not, the new group has no rights.
    for group in nogroup:664:664 users:664:664 users:640:640 root:664:604 root:640:600 root:777:707; do
        IFS=: read -r group old new <<<"$group"
        install -o root -g "$group" -m "$old" a.info theirs/a.info
        call setpriv --reuid=nobody --regid=nogroup --groups=users "$program" merge -o theirs/a.info a.info b.info
        ended 0 "merge -o: a file of the group $group, rights $old"
        [ "$group" != root ] || group=nogroup
        holds "merge -o: then it is of $group, rights $new" [ "$(stat -c %a:%U:%G theirs/a.info)" = "$new:nobody:$group" ]
    done
    # As root, owner and group stay.
    install -o nobody -g users -m 640 a.info theirs/a.info
    call "$program" merge -o theirs/a.info a.info b.info
    same wanted theirs/a.info "merge -o: root writes another one's file"
    holds 'merge -o: it keeps owner, group and rights' [ "$(stat -c %a:%U:%G theirs/a.info)" = 640:nobody:users ]
    ln -s theirs/a.info link
    chmod 600 theirs/a.info
    call "$program" merge -o link a.info b.info
    holds 'merge -o: the same by a link' [ "$(stat -c %a:%U:%G theirs/a.info)" = 600:nobody:users ]
    only 'merge -o: and nothing else is there' theirs a.info
    # A name is used as it is given: the folders above the working folder need not be searched.
    mkdir above above/here
    cp a.info b.info above/here
    chown -R nobody:nogroup above/here
    chmod 700 above
    for name in a.info new.info new.info; do
        call bash -c 'cd above/here && exec "$@"' - "${nobody[@]}" "$program" merge -o $name "$PWD/a.info" b.info
        ended 0 "merge -o: $name, below a folder that may not be searched"
        same wanted above/here/$name 'merge -o: it is written'
    done
    only 'merge -o: and nothing else is there' above/here a.info b.info new.info
}

@test "a full disk" {
    local how number
    texts
    for how in write:1 write:2 write:3 write:4 write:5 fsync rename; do
        onto_disk $how
        ended 1 "merge -o: $how fails"
        says "$work/err" "merge -o: $how: is told" "all.info: can't write"
        same "$work/4.info" all.info "merge -o: $how: the file is as it was"
        only "merge -o: $how: and nothing is left" . all.info
    done
    onto_disk none
    same "$work/3.info" all.info 'merge -o: on a good disk it is written'
    # A limit on the length of files, which the kernel keeps.
    for number in 1 64 128 300; do
        cp "$work/4.info" all.info
        call bash -c 'trap "" XFSZ; ulimit -f $1; exec "$COVCOLLECT" merge -o all.info "$2" "$3"' - $number "$work/1.info" "$work/2.info"
        ended 1 "merge -o: files have at most $number KiB"
        same "$work/4.info" all.info "merge -o: $number KiB: the file is as it was"
        only "merge -o: $number KiB: and nothing is left" . all.info
    done
    call bash -c 'trap "" XFSZ; ulimit -f 1; exec "$COVCOLLECT" merge -o new.info "$1"' - "$work/1.info"
    ended 1 'merge -o: the same for a new file'
    only 'merge -o: which is not made' . all.info
}

@test "a program that is killed" {
    local how old=0 new=0
    texts
    for how in die:1 die:3 before after; do
        onto_disk $how
        ended 137 "merge -o: killed, $how"
        if [ $how = after ]; then
            same "$work/3.info" all.info "merge -o: $how: the file is new"
        else
            same "$work/4.info" all.info "merge -o: $how: the file is old"
            holds "merge -o: $how: and what was begun stays beside it" compgen -G 'all.info.????????????????.part' >/dev/null
            call "$COVCOLLECT" merge -o all.info "$work/1.info" "$work/2.info"
            same "$work/3.info" all.info "merge -o: $how: the next call writes it"
        fi
    done
    # At any moment.
    rm -f all.info*
    cp "$work/4.info" all.info
    for _ in {1..60}; do
        cp "$work/4.info" all.info
        timeout -s KILL "0.0$((RANDOM % 90 + 10))" "$COVCOLLECT" merge -o all.info "$work/1.info" "$work/2.info" 3>&- 4>&- || true
        ! cmp -s "$work/4.info" all.info || old=$((old + 1))
        ! cmp -s "$work/3.info" all.info || new=$((new + 1))
    done
    holds 'merge -o: killed at any moment, the file is old or new' [ $((old + new)) -eq 60 ]
    show <<<"old $old times, new $new times"
}

one_of_them() { # FILE
    local count
    for count in 1 2 3 4; do
        ! cmp -s "$1" "$work/$count.info" || return 0
    done
    return 1
}

@test "calls at the same time" {
    local writer pids looks=0 bad=0
    texts
    cp "$work/4.info" all.info
    # Who reads the file meanwhile sees one of the texts, whole.
    for _ in {1..10}; do
        pids=()
        for writer in 1 2 3 4; do
            "$COVCOLLECT" merge -o all.info "$work/$writer.info" 3>&- 4>&- &
            pids+=($!)
        done
        while kill -0 "${pids[@]}" 2>/dev/null; do
            cat all.info >seen.info
            looks=$((looks + 1))
            one_of_them seen.info || bad=$((bad + 1))
        done
        for writer in "${pids[@]}"; do
            wait "$writer" || bad=$((bad + 1))
        done
        one_of_them all.info || bad=$((bad + 1))
    done
    holds 'merge -o: four calls on one file all end well, and readers see whole texts' [ $bad -eq 0 ]
    only 'merge -o: and nothing is left' . all.info seen.info
    show <<<"looked at $looks times"
    # Each of them also reads it: no count is doubled or made up, whoever comes last.
    small a 1 >sum.info
    for _ in {1..10}; do
        pids=()
        for writer in 1 2; do
            "$COVCOLLECT" merge -o sum.info sum.info 3>&- 4>&- &
            pids+=($!)
        done
        wait "${pids[@]}"
    done
    small a 1 >wanted
    same wanted sum.info 'merge -o: two calls that read and write one file'
}
