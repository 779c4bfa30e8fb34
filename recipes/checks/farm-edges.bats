#!/usr/bin/env bats
# farm.mk: a tracefile that changed, with the size, the inode and the time that it had.
#
# need make make
# need tar tar

load common

@test "an archive unpacked over another" {
    local hits
    mkdir -p src machines/m1
    # Two archives of one tracefile, with different counts, and one time for both.
    for hits in 1 7; do
        printf 'SF:/a.c\nDA:1,%d\nend_of_record\n' "$hits" >src/a.info
        tar -C src --mtime=2026-01-01 -cf "$hits.tar" a.info
    done
    tar -C machines/m1 -xf 1.tar
    call make -f "$recipes/farm.mk"
    ended 0 'farm.mk: a tracefile of an archive'
    says farm.info 'farm.mk: which is counted' DA:1,1
    stat -c '%i %s %.9Y' machines/m1/a.info >before
    tar -C machines/m1 --overwrite -xf 7.tar
    holds 'farm.mk: the other archive leaves inode, size and time as they were' [ "$(stat -c '%i %s %.9Y' machines/m1/a.info)" = "$(<before)" ]
    call make -f "$recipes/farm.mk"
    ended 0 'farm.mk: another archive unpacked over it'
    says farm.info 'farm.mk: the total is that of the new one' DA:1,7
    call make -f "$recipes/farm.mk"
    holds 'farm.mk: nothing is made anew where nothing changed after that' [ "$status:$(<"$work/err")" = 0: ]
}

@test "a copy that keeps the time" {
    mkdir -p machines/m1
    printf 'SF:/a.c\nDA:1,1\nend_of_record\n' >'machines/m1/a file.info'
    touch -d 2026-01-01 'machines/m1/a file.info'
    call make -f "$recipes/farm.mk" CHECK=no
    says farm.info 'farm.mk: a tracefile whose name has a space' DA:1,1
    printf 'SF:/a.c\nDA:1,7\nend_of_record\n' >other
    touch -d 2026-01-01 other
    cp --preserve=timestamps other 'machines/m1/a file.info'
    call make -f "$recipes/farm.mk" CHECK=no
    says farm.info 'farm.mk: a copy over it, with its size and time' DA:1,7
    # With CHECK=skip it is intake that reads the list.
    call make -f "$recipes/farm.mk" CHECK=skip
    says farm.info 'farm.mk: the same with CHECK' DA:1,7
    printf 'SF:/a.c\nDA:1,9\nend_of_record\n' >other
    touch -d 2026-01-01 other
    cp --preserve=timestamps other 'machines/m1/a file.info'
    call make -f "$recipes/farm.mk" CHECK=fail
    says farm.info 'farm.mk: another one, with CHECK=fail' DA:1,9
}
