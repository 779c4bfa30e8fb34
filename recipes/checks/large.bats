#!/usr/bin/env bats
# --large: a tracefile of any length is read in pieces. What is made of it, the numbers of its faults, what goes over from piece to
# piece, and what check and --strict say of the whole; pipes, long sections, clashes and files that can't be read.
#
# need gcc gcc

load common

# A section here has 1,030 bytes and 112 lines, so a piece of 4 MiB has 4,072 of them, also behind the line TN:t. Nothing that is wanted
# depends on it: it decides where faults and names are put.
#
# The sections FIRST to LAST of the sources /projects/library/NUMBER.c, with the lines 100 to 207 of this count, and FRONT before each.
sections() { # FIRST LAST COUNT [FRONT]
    awk -v first="$1" -v last="$2" -v count="$3" -v front="${4-}" 'BEGIN {
        for (line = 100; line < 208; line++) lines = lines "DA:" line "," count "\n"
        for (number = first; number <= last; number++)
            printf "%sSF:/projects/library/%06d.c\n%sLF:108\nLH:108\nend_of_record\n", front, number, lines
    }'
}
# The line of ten.info in which a section begins, or one so many lines below it: its DA: lines are 1 to 108, LF: 109, LH: 110, and the
# last one 111.
at() { echo $((2 + 112 * ($1 - 1) + ${2:-0})); } # SECTION [BELOW]
repeated() { awk -v times="$2" -v line="$1" 'BEGIN { while (times-- > 0) print line }'; } # LINE TIMES
# So many bytes in one line, which no tracefile has.
padding() { printf '#'; head -c $(($1 - 2)) /dev/zero | tr '\0' x; echo; } # BYTES
bring() { ln -s "${@/#/$BATS_FILE_TMPDIR/}" .; } # NAME...

setup_file() {
    cd "$BATS_FILE_TMPDIR" || return
    sections 1 10240 1 >body
    sections 1 10240 1 'TN:t\n' >wanted.1
    sed 's/,1$/,7/' wanted.1 >wanted.7
    # 10 MiB, three pieces; and 70 MiB, which is more than a text may have.
    { echo TN:t; cat body; } >ten.info
    { echo TN:t; cat body body body body body body body; } >seventy.info
    { echo TN:t; cat body body body; } >three.info
    { echo TN:t; cat body body body body; } >four.info
    rm body
}

# A call on ten.info ends well with the option and without it, and prints this text.
both() { # FILE WHAT WORD...
    local file=$1 what=$2
    shift 2
    call "$COVCOLLECT" "$1" --large "${@:2}"
    ended 0 "$what"
    same "$file" "$work/out" "$what: what is printed"
    call "$COVCOLLECT" "$@"
    ended 0 "$what, without the option"
    same "$file" "$work/out" "$what, without the option: the same"
}
# bad.info is refused so, by merge and by check, with the option and without it.
refused() { # FAULT [WORD]
    local flag bad=0
    for flag in --large --jobs=1; do
        call "$COVCOLLECT" merge $flag "${@:2}" bad.info
        { [ "$status" -eq 4 ] && [ ! -s "$work/out" ] && [ "$(cat "$work/err")" = "bad.info: refused $1" ]; } || bad=1
        [ $bad -eq 0 ] || show "$work/err"
        call "$COVCOLLECT" check $flag "${@:2}" bad.info
        { [ "$status" -eq 4 ] && [ ! -s "$work/err" ] && [ "$(cat "$work/out")" = "bad.info: refused $1" ]; } || bad=1
        [ $bad -eq 0 ] || show "$work/out"
        [ $bad -eq 0 ] || break
    done
    verdict $bad "merge and check --large: $1, as without the option"
}
changed() { sed "$1" ten.info >bad.info; } # SCRIPT

@test "several pieces" {
    bring ten.info wanted.1
    both wanted.1 'merge --large: three pieces' merge ten.info
    cat >wanted <<'END'
Summary coverage rate:
  lines......: 100.0% (1105920 of 1105920 lines)
  functions..: no data found
  branches...: no data found
END
    both wanted 'summary --large: three pieces' summary ten.info
    echo 'ten.info: sections 10240 items 1105920 odd 0 skipped 0' >wanted
    both wanted 'check --large: three pieces' check ten.info
    sed 's/$/\r/' ten.info >other.info
    both wanted.1 'merge --large: carriage returns' merge other.info
    head -c -1 ten.info >other.info
    both wanted.1 'merge --large: no final line feed' merge other.info
    # Blank lines between the pieces, and many at the end.
    { sed "$(at 4073)s/^/\n\n\n/" ten.info; head -c 5000000 /dev/zero | tr '\0' '\n'; } >other.info
    both wanted.1 'merge --large: blank lines' merge other.info
}

@test "longer than a text" {
    local name words
    bring seventy.info three.info four.info ten.info wanted.7
    for words in merge summary list 'extract seventy.info *' 'remove seventy.info *.h'; do
        set -f
        # shellcheck disable=SC2086
        [[ $words == *' '* ]] && call "$COVCOLLECT" $words || call "$COVCOLLECT" $words seventy.info
        set +f
        told_alone 4 "${words%% *}: 70 MiB without the option" 'seventy.info: refused TooLong'
    done
    call "$COVCOLLECT" check seventy.info
    ended 4 'check: 70 MiB without the option'
    says "$work/out" 'check: it is refused' 'seventy.info: refused TooLong'
    call "$COVCOLLECT" merge --large seventy.info
    ended 0 'merge --large: 70 MiB'
    same wanted.7 "$work/out" 'merge --large: the merge worked out by hand'
    call "$COVCOLLECT" merge three.info four.info
    ended 0 'merge: the two parts of it'
    same wanted.7 "$work/out" 'merge: the same bytes'
    call "$COVCOLLECT" check --large seventy.info
    ended 0 'check --large: 70 MiB'
    says "$work/out" 'check --large: its line' 'seventy.info: sections 71680 items 7741440 odd 0 skipped 0'
    # It is never held as a whole.
    call bash -c 'ulimit -v "$(($(stat -L -c %s seventy.info) / 1024))"; exec "$COVCOLLECT" check --large seventy.info'
    ended 0 'check --large: 70 MiB in less memory than that'
    says "$work/out" 'check --large: the same line' 'seventy.info: sections 71680 items 7741440 odd 0 skipped 0'
    # Pipes have no length.
    call bash -c 'exec "$COVCOLLECT" merge --large <(cat seventy.info)'
    ended 0 'merge --large: 70 MiB from a pipe'
    same wanted.7 "$work/out" 'merge --large: the same from a pipe'
    mkfifo pipe
    daemon cp seventy.info pipe
    call "$COVCOLLECT" merge --large --jobs 4 pipe ten.info ten.info
    ended 0 'merge --large: a FIFO beside two other files, by four jobs'
    sed 's/,7$/,9/' wanted.7 >wanted
    same wanted "$work/out" 'merge --large: and their merge'
    # It may be replaced, and stays if the call fails.
    for name in seventy.info ten.info; do
        rm $name
        cp "$BATS_FILE_TMPDIR/$name" .
    done
    echo DA:1,1 >>seventy.info
    cp seventy.info before.info
    call "$COVCOLLECT" merge --large -o seventy.info seventy.info ten.info
    told_alone 4 'merge --large -o: a fault in the last line of an input' 'seventy.info: refused Outside at 8028162'
    same before.info seventy.info 'merge --large -o: the input is as it was'
    cp "$BATS_FILE_TMPDIR/seventy.info" .
    call "$COVCOLLECT" merge --large -o seventy.info ten.info seventy.info ten.info
    ended 0 'merge --large -o: into an input of 70 MiB'
    same wanted seventy.info 'merge --large -o: the merge of all'
    only 'merge --large -o: and nothing is left beside it' . before.info four.info pipe seventy.info ten.info three.info wanted wanted.7
}

@test "other subcommands" {
    bring seventy.info
    call "$COVCOLLECT" list --large --include '*/00000[12].c' --include '*/010240.c' seventy.info
    ended 0 'list --large: three files of 70 MiB'
    cat >wanted <<'END'
         Lines   Functions    Branches  File
100.0% 108/108       - 0/0       - 0/0  /projects/library/000001.c
100.0% 108/108       - 0/0       - 0/0  /projects/library/000002.c
100.0% 108/108       - 0/0       - 0/0  /projects/library/010240.c
100.0% 324/324       - 0/0       - 0/0  Total
END
    same wanted "$work/out" 'list --large: the table'
    call "$COVCOLLECT" list --json --large --include '*/010240.c' seventy.info
    ended 0 'list --json --large: a file of 70 MiB'
    cat >wanted <<'END'
{"files":[
{"file":"/projects/library/010240.c","lines":{"found":108,"hit":108},"functions":{"found":0,"hit":0},"branches":{"found":0,"hit":0}}
],"total":{"lines":{"found":108,"hit":108},"functions":{"found":0,"hit":0},"branches":{"found":0,"hit":0}}}
END
    same wanted "$work/out" 'list --json --large: the list'
    call "$COVCOLLECT" extract --large seventy.info '*/010240.c' '/projects/library/000001.?'
    ended 0 'extract --large: two files of 70 MiB'
    { sections 1 1 7 'TN:t\n'; sections 10240 10240 7 'TN:t\n'; } >wanted
    same wanted "$work/out" 'extract --large: their sections'
    call "$COVCOLLECT" remove --large --strict seventy.info '*/00*'
    ended 0 'remove --large: 241 files are left'
    sections 10000 10240 7 'TN:t\n' >wanted
    same wanted "$work/out" 'remove --large: their sections'
    bring ten.info
    sed "$(at 10240 108)s/,1$/,0/" ten.info >other.info
    call "$COVCOLLECT" summary --large --json --fail-under-lines 100 other.info
    ended 6 'summary --large: a threshold'
    echo '{"lines":{"found":1105920,"hit":1105919},"functions":{"found":0,"hit":0},"branches":{"found":0,"hit":0}}' >wanted
    same wanted "$work/out" 'summary --large: the numbers'
    says "$work/err" 'summary --large: one line of the last piece is below it' 'lines: 1105919 of 1105920 is below 100%'
    call "$COVCOLLECT" summary --large --fail-under-lines 99.9999 other.info
    ended 0 'summary --large: a threshold that is met'
    call "$COVCOLLECT" gcov --large --test t ten.info
    ended 2 'gcov: it has no such option'
    call "$COVCOLLECT" check --gcov --large seventy.info
    ended 4 'check --gcov --large: 70 MiB of gcov text'
    says "$work/out" 'check --gcov --large: are refused, as without it' 'seventy.info: refused TooLong'
    printf '        -:    0:Source:/g.c\n        2:    1:int main\n' >g.gcov
    call "$COVCOLLECT" check --gcov --large g.gcov
    ended 0 'check --gcov --large: a short one'
    says "$work/out" 'check --gcov --large: its line' 'g.gcov: sections 1 items 1 odd 0 skipped 0'
}

@test "faults" {
    bring ten.info seventy.info
    changed 's/^TN:t$/DA:1,1/'
    refused 'Outside at 1'
    changed '3s/.*/DA:x/'
    refused 'BadLine at 3'
    # The first line of a piece, and its last one.
    changed "$(at 4073)s/.*/DA:1,1/"
    refused 'Outside at 456066'
    changed "$(at 4073)s/.*/SF:/"
    refused 'EmptyPath at 456066'
    changed "$(at 4072 111)s/.*/TN:u/"
    refused 'Inside at 456065'
    changed "$(at 4072 111)d"
    refused 'Inside at 456065'
    # Within the second one and the third.
    changed "$(at 5000 1)s/.*/DA:100,340282366920938463463374607431768211456/"
    refused 'NumberTooLarge at 559891'
    changed "$(at 8145 50)s/.*/TN:u/"
    refused 'Inside at 912180'
    changed "$(at 10240 110)s/.*/LH:-1/"
    refused 'BadLine at 1146880'
    changed '$d'
    refused OpenEnd
    { cat ten.info; printf end_of_record; } >bad.info
    refused 'Outside at 1146882'
    # The first one is told.
    changed "$(at 10240)s/.*/SF:/; $(at 4500 3)s/.*/FN:1/; \$d"
    refused 'BadLine at 503893'
    sed 's/$/\r/' bad.info >other.info
    mv other.info bad.info
    refused 'BadLine at 503893'
    changed "$(at 6000 2)s/.*/FNL:0/"
    refused 'BadLine at 671892' --lcov2
    changed "$(at 9000 2)s/.*/FNA:0,1,f/"
    refused 'Misplaced at 1007892' --lcov2
    # Beyond 64 MiB.
    sed "$(at 71680 1)s/.*/DA:100,-/" seventy.info >bad.info
    call "$COVCOLLECT" merge --large bad.info
    told_alone 4 'merge --large: a fault in the last section of 70 MiB' 'bad.info: refused BadLine at 8028051'
    sed '$d' seventy.info >bad.info
    call "$COVCOLLECT" summary --large --jobs 2 bad.info ten.info
    told_alone 4 'summary --large: 70 MiB that were cut off' 'bad.info: refused OpenEnd'
    changed "$(at 4073)s/.*/DA:1,1/"
    call "$COVCOLLECT" extract --large bad.info '*'
    told_alone 4 'extract --large: a fault in the second piece' 'bad.info: refused Outside at 456066'
}

@test "names of tests go over" {
    local long
    {
        echo TN:t; sections 1 4071 1
        echo TN:u; sections 4072 8000 1
        printf '\nTN:x\nTN:v\n\n'; sections 8001 10000 1
        echo TN:; sections 10001 10240 1
    } >names.info
    { sections 1 4071 1 'TN:t\n'; sections 4072 8000 1 'TN:u\n'; sections 8001 10000 1 'TN:v\n'; sections 10001 10240 1 'TN:\n'; } >wanted
    both wanted 'merge --large: names that go over' merge names.info
    # The name changes just between the pieces.
    { echo TN:t; sections 1 4072 1; printf 'TN:u\r\n'; sections 4073 8144 1; echo TN:; sections 8145 10240 1; } >names.info
    { sections 1 4072 1 'TN:t\n'; sections 4073 8144 1 'TN:u\n'; sections 8145 10240 1 'TN:\n'; } >wanted
    both wanted 'merge --large: names between pieces' merge names.info
    # No name at all, and a long one. The file has two pieces of the same sections.
    { sections 1 4000 1; sections 1 4000 1; } >names.info
    sections 1 4000 2 'TN:\n' >wanted
    both wanted 'merge --large: the empty name' merge names.info
    long=$(padding 100002)
    { echo "TN:$long"; cat names.info; } >other.info
    { echo "TN:$long"; sections 4000 4000 2; } >wanted
    both wanted 'extract --large: a name of 100,001 bytes' extract other.info '*/004000.c'
}

@test "groups of functions go over" {
    bring ten.info wanted.1
    # Section 4072 is the last of its piece. Totals behind it say nothing, as long as its FNL: line is the last one.
    sed -e "$(at 4072)s/$/\nFNL:0,5\nFNA:0,3,f\nFNA:0,0,g\nFNF:1/" -e "$(at 4072 111)s/$/\nFNF:1\nFNH:1/" ten.info >bad.info
    sed "/004072/s/$/\nFN:5,f\nFN:5,g\nFNDA:3,f\nFNDA:0,g\nFNF:2\nFNH:1/" wanted.1 >wanted
    both wanted 'merge --large --lcov2: a total in the next piece' merge --lcov2 bad.info
    echo 'bad.info: sections 10240 items 1105924 odd 0 skipped 0' >wanted
    both wanted 'check --large --lcov2: the same' check --lcov2 bad.info
    refused 'Outside at 456070'
    sed -e "$(at 4072)s/$/\nFNL:0,5/" -e "$(at 4073 111)s/$/\nFNF:1/" ten.info >bad.info
    refused 'Outside at 456179' --lcov2
    sed -e "$(at 4072)s/$/\nFNL:0,5/" -e "$(at 4073)s/$/\nFNA:0,1,f/" ten.info >bad.info
    refused 'Misplaced at 456068' --lcov2
    changed "$(at 4072 111)s/$/\nFNH:1/"
    refused 'Outside at 456066' --lcov2
    # Below an FNL: line of its own section a total says nothing, below that of another one it is odd.
    sed -e "$(at 4072)s/$/\nFNL:0,5/" -e "$(at 4073)s/$/\nFNF:1/" -e "$(at 4074)s/$/\nFNL:1,2\nFNF:1/" ten.info >other.info
    echo 'other.info: sections 10240 items 1105920 odd 1 skipped 0' >wanted
    both wanted 'check --large --lcov2: the next path ends a group' check --lcov2 other.info
}

# Odd lines in the second and the third piece, and skipped ones there and at the very end.
unclean() {
    sed -e "$(at 4096 110)s/.*/LH:1/" -e "$(at 5000 110)s/.*/COUNT:12/" -e "$(at 9000 109)s/.*/FNDA:2,f/" \
        -e "$(at 9000 110)s/.*/BRF:1/" -e "$(at 9500 110)s/.*/VER:1/" ten.info
    echo '# end'
}
line='sections 10240 items 1105920 odd 3 skipped 3 first COUNT at 560000'
line2='sections 10240 items 1105920 odd 3 skipped 1 first COUNT at 560000'

@test "what the whole holds" {
    bring ten.info wanted.1
    unclean >bad.info
    echo "bad.info: $line" >wanted
    both wanted 'check --large: odd and skipped lines in several pieces' check bad.info
    echo "bad.info: $line2" >wanted
    both wanted 'check --large --lcov2: the same' check --lcov2 bad.info
    both wanted.1 'merge --large: they have no effect' merge bad.info
    { cat ten.info; echo '<end> '; } >other.info
    echo 'other.info: sections 10240 items 1105920 odd 0 skipped 1 first <end> at 1146882' >wanted
    both wanted 'check --large: a skipped line at the end' check other.info
    printf '\n one\n' >first.info
    cat other.info >>first.info
    echo 'first.info: sections 10240 items 1105920 odd 0 skipped 2 first ?one at 2' >wanted
    both wanted 'check --large: one in the first piece and one in the last' check first.info
    call "$COVCOLLECT" check --large --strict --jobs 4 ten.info bad.info first.info ten.info /dev/null
    ended 5 'check --large --strict: by four jobs'
    { echo "bad.info: $line"; cat wanted; echo '/dev/null: sections 0 items 0 odd 0 skipped 0'; } >told
    same told "$work/err" 'check --large --strict: what is told'
    echo 'ten.info: sections 10240 items 1105920 odd 0 skipped 0' >clean
    { cat clean; head -n 2 told; cat clean; tail -n 1 told; } >wanted
    same wanted "$work/out" 'check --large --strict: what is printed'
}

@test "strict calls" {
    bring ten.info seventy.info wanted.1
    unclean >bad.info
    both wanted.1 'merge --large --strict: a clean file' merge --strict ten.info
    call "$COVCOLLECT" merge --large --strict -o out.info ten.info bad.info /dev/null
    told_alone 5 'merge --large --strict: two that are not clean' "bad.info: $line" '/dev/null: sections 0 items 0 odd 0 skipped 0'
    call "$COVCOLLECT" summary --large --strict --lcov2 --jobs 4 bad.info ten.info bad.info
    told_alone 5 'summary --large --strict --lcov2: by four jobs' "bad.info: $line2" "bad.info: $line2"
    # Beyond 64 MiB.
    { cat seventy.info; echo x; } >other.info
    call "$COVCOLLECT" list --large --strict other.info
    told_alone 5 'list --large --strict: a line behind 70 MiB' 'other.info: sections 71680 items 7741440 odd 0 skipped 1 first x at 8028162'
    call "$COVCOLLECT" extract --large --strict -o out.info seventy.info '*' '*.h'
    told_alone 5 'extract --large --strict: a pattern in vain' '*.h: matches no file'
    # What is worse is told alone.
    sed '$d' ten.info >cut.info
    call "$COVCOLLECT" merge --large --strict --jobs 2 -o out.info bad.info cut.info
    told_alone 4 'merge --large --strict: one that was cut off beside it' 'cut.info: refused OpenEnd'
    call "$COVCOLLECT" merge --large --strict -o out.info bad.info cut.info none.info
    told_alone 1 'merge --large --strict: one that is not there' "none.info: can't read"
    # A file that is refused is told as refused, though its first pieces aren't clean.
    sed '$d' bad.info | sed '$d' >cut.info
    call "$COVCOLLECT" merge --large --strict cut.info
    told_alone 4 'merge --large --strict: an unclean one that was cut off' 'cut.info: refused OpenEnd'
    holds 'merge --large --strict: and no file is written' [ ! -e out.info ]
}

@test "long sections" {
    local section number
    # 20 MiB in a section, four times: a line that is counted 3,000,000 times in each.
    { echo SF:/a.c; repeated DA:1,1 3000000; echo end_of_record; } >long
    { echo TN:t; sections 1 1 1; cat long long long long; sections 2 2 1; } >long.info
    { echo TN:t; printf 'SF:/a.c\nDA:1,12000000\nLF:1\nLH:1\nend_of_record\n'; sections 1 2 1 'TN:t\n'; } >wanted
    call "$COVCOLLECT" merge long.info
    told_alone 4 'merge: 84 MB without the option' 'long.info: refused TooLong'
    call "$COVCOLLECT" merge --large long.info
    ended 0 'merge --large: sections of 20 MiB'
    same wanted "$work/out" 'merge --large: their merge'
    rm long long.info
    # 65 MiB in one. The section before it is read, and its fault is told first.
    section=$(printf 'SF:/b.c\nDA:1,1,y\n')
    { echo "$section"; padding 68157440; echo end_of_record; } >long
    { printf 'TN:t\nSF:/a.c\nDA:1,1,x\nend_of_record\n'; cat long; } >long.info
    call "$COVCOLLECT" merge --large long.info
    told_alone 4 'merge --large: a section of 65 MiB' 'long.info: refused TooLong'
    call "$COVCOLLECT" check --large --strict long.info
    ended 4 'check --large: a section of 65 MiB'
    says "$work/out" 'check --large: it is refused' 'long.info: refused TooLong'
    printf 'SF:/a.c\nDA:1,1,z\nend_of_record\n' >a.info
    printf 'SF:/b.c\nDA:1,1,z\nend_of_record\n' >b.info
    call "$COVCOLLECT" merge --large long.info a.info b.info
    told_alone 4 'merge --large: the section before it stays, and may clash' 'long.info: refused TooLong' 'clash /a.c 1 x z'
    sed '3s/.*/DA:1/' long.info >bad.info
    call "$COVCOLLECT" merge --large bad.info
    told_alone 4 'merge --large: a fault before it' 'bad.info: refused BadLine at 3'
    # Just as long as a text may be, with the line TN:t before it, and one byte longer: 5 + 17 + 67,108,828 + 14 bytes.
    for number in 67108828 67108829; do
        { printf 'TN:t\nSF:/a.c\nDA:1,1,x\nend_of_record\n'; echo "$section"; padding $number; echo end_of_record; } >long.info
        call "$COVCOLLECT" merge --large long.info
        [ $number -eq 67108828 ] || told_alone 4 'merge --large: a byte too long' 'long.info: refused TooLong'
        [ $number -ne 67108828 ] || ended 0 'merge --large: just as long as a text may be'
    done
}

# A file of at most 64 MiB means the same with the option, whatever it holds.
@test "64 MiB" {
    { printf 'SF:/a.c\nDA:1,1\n'; padding $((67108864 - 15 - 14)); echo end_of_record; } >most.info
    holds 'a section of 64 MiB: the length' [ "$(stat -c %s most.info)" -eq 67108864 ]
    printf 'TN:\nSF:/a.c\nDA:1,1\nLF:1\nLH:1\nend_of_record\n' >wanted
    both wanted 'merge --large: one section of 64 MiB' merge most.info
    head -c 67108864 /dev/zero | tr '\0' '\n' >most.info
    both /dev/null 'merge --large: 64 MiB of line feeds' merge most.info
    echo >>most.info
    call "$COVCOLLECT" merge most.info
    told_alone 4 'merge: a byte more' 'most.info: refused TooLong'
}

@test "no section" {
    local flag
    # What follows the last section is a piece of its own.
    { printf 'SF:/a.c\nDA:1,1\nend_of_record\n'; head -c 67108000 /dev/zero | tr '\0' '\n'; } >long.info
    printf 'TN:\nSF:/a.c\nDA:1,1\nLF:1\nLH:1\nend_of_record\n' >wanted
    both wanted 'merge --large: 64 MB of line feeds at the end' merge long.info
    head -c 67109000 /dev/zero | tr '\0' '\n' >>long.info
    call "$COVCOLLECT" merge --large long.info
    told_alone 4 'merge --large: more than a piece may have without a section' 'long.info: refused TooLong'
    rm long.info
    both /dev/null 'merge --large: an empty file' merge /dev/null
    repeated '# no section' 800000 >none.info
    both /dev/null 'merge --large: 10 MB of other lines' merge none.info
    for flag in --large --jobs=1; do
        call "$COVCOLLECT" check $flag none.info /dev/null
        ended 5 "check $flag: no section"
        printf '%s\n' 'none.info: sections 0 items 0 odd 0 skipped 800000 first # at 1' '/dev/null: sections 0 items 0 odd 0 skipped 0' >wanted
        same wanted "$work/out" "check $flag: what is printed"
        printf '%s: no items\n' none.info /dev/null >wanted
        same wanted "$work/err" "check $flag: what is told"
    done
}

@test "clashes" {
    local words
    bring ten.info
    # The last piece has a checksum, and so has another file.
    sed "$(at 10240 1)s/$/,x/" ten.info >one.info
    printf 'SF:/projects/library/010240.c\nDA:100,1,y\nend_of_record\n' >two.info
    for words in 'one.info two.info' 'two.info one.info'; do
        # shellcheck disable=SC2086
        call "$COVCOLLECT" merge --large $words
        [ "${words%% *}" = one.info ] && set -- x y || set -- y x
        told_alone 4 "merge --large: $words clash" "clash /projects/library/010240.c 100 $1 $2"
    done
    call "$COVCOLLECT" merge --large --jobs 2 one.info two.info
    ended 4 'merge --large: a clash by two jobs'
    clashes 'merge --large: it is told' /projects/library/010240.c 100 x y
    # Within one file, and then within one piece.
    { cat one.info; sed 's/,y/,z/' two.info; } >three.info
    call "$COVCOLLECT" merge --large three.info
    told_alone 4 'merge --large: a piece clashes with itself' 'clash /projects/library/010240.c 100 x z'
    sed "$(at 1 1)s/$/,a/" ten.info >three.info
    printf 'SF:/projects/library/000001.c\nDA:7,1\nDA:100,1,b\nend_of_record\n' >>three.info
    call "$COVCOLLECT" merge --large three.info
    told_alone 4 'merge --large: the first piece and the last one clash' 'clash /projects/library/000001.c 100 a b'
    call "$COVCOLLECT" merge three.info
    told_alone 4 'merge: so they do without the option' 'clash /projects/library/000001.c 100 a b'
    # Each piece that clashes is told: it is a submission of its own. Without the option the first line of the file is.
    sed -e "$(at 1 1)s/$/,a/" -e "$(at 10240 1)s/$/,b/" ten.info >three.info
    printf 'SF:/projects/library/%s.c\nDA:100,1,%s\nend_of_record\n' 000001 x 010240 y >two.info
    call "$COVCOLLECT" merge --large two.info three.info
    told_alone 4 'merge --large: two pieces clash' 'clash /projects/library/000001.c 100 x a' 'clash /projects/library/010240.c 100 y b'
    call "$COVCOLLECT" merge two.info three.info
    told_alone 4 'merge: the file clashes once' 'clash /projects/library/000001.c 100 x a'
    # The pieces before a fault stay.
    sed -e "$(at 1 1)s/$/,a/" -e '$d' ten.info >one.info
    printf 'SF:/projects/library/000001.c\nDA:100,1,b\nend_of_record\n' >two.info
    call "$COVCOLLECT" merge --large one.info two.info
    told_alone 4 'merge --large: a piece before a fault clashes' 'one.info: refused OpenEnd' 'clash /projects/library/000001.c 100 a b'
    # So do all but the last piece of a file that isn't clean, which is told only if nothing clashes.
    { sed "$(at 1 1)s/$/,a/" ten.info; echo x; } >one.info
    call "$COVCOLLECT" merge --large --strict one.info two.info
    told_alone 4 'merge --large --strict: a piece of an unclean file clashes' 'clash /projects/library/000001.c 100 a b'
    sed -i 's/,b$/,a/' two.info
    call "$COVCOLLECT" merge --large --strict one.info two.info
    told_alone 5 'merge --large --strict: and without a clash' 'one.info: sections 10240 items 1105920 odd 0 skipped 1 first x at 1146882'
}

@test "files that can't be read" {
    local number name
    bring ten.info
    mkdir folder
    for name in folder none.info; do
        call "$COVCOLLECT" merge --large -o out.info ten.info $name
        told_alone 1 "merge --large: $name" "$name: can't read"
    done
    sed '$d' ten.info >bad.info
    call "$COVCOLLECT" check --large folder ten.info none.info bad.info
    ended 1 'check --large: two of four files'
    printf "%s: can't read\n" folder none.info >wanted
    same wanted "$work/err" 'check --large: both are told'
    printf '%s\n' 'ten.info: sections 10240 items 1105920 odd 0 skipped 0' 'bad.info: refused OpenEnd' >wanted
    same wanted "$work/out" 'check --large: and the others have their lines'
    # A read fails at once, in the second piece and in the last one.
    gcc -O2 -shared -fPIC -o "$work/disk.so" "$recipes/checks/disk.c" -ldl
    cp ten.info a.torn
    for number in 1 100 161; do
        call env LD_PRELOAD="$work/disk.so" DISK=read:$number "$COVCOLLECT" merge --large --strict -o out.info bad.info a.torn
        told_alone 1 "merge --large: read $number fails" "a.torn: can't read"
    done
    call env LD_PRELOAD="$work/disk.so" DISK=read:100 "$COVCOLLECT" check --large a.torn
    told_alone 1 'check --large: a read fails' "a.torn: can't read"
    call env LD_PRELOAD="$work/disk.so" DISK=read:1000 "$COVCOLLECT" summary --large a.torn
    ended 0 'summary --large: no read fails'
    holds 'merge --large: no file is written' [ ! -e out.info ]
}

@test "several files by several jobs" {
    local jobs place
    bring ten.info wanted.1
    sed 's/,1$/,6/' wanted.1 >wanted.6
    for jobs in 1 4 16; do
        call "$COVCOLLECT" merge --large --jobs $jobs ten.info ten.info ten.info ten.info ten.info ten.info
        ended 0 "merge --large --jobs $jobs: six files"
        same wanted.6 "$work/out" "merge --large --jobs $jobs: their merge"
    done
    # Faults are told in the order of the files.
    for place in 1 2 3 4; do
        sed "$(at $((place * 2500)) 3)s/.*/DA:1/" ten.info >bad.$place
    done
    call "$COVCOLLECT" merge --large --jobs 4 bad.4 ten.info bad.2 bad.1 ten.info bad.3
    told_alone 4 'merge --large --jobs 4: faults in several files' 'bad.4: refused BadLine at 1119893' 'bad.2: refused BadLine at 559893' \
        'bad.1: refused BadLine at 279893' 'bad.3: refused BadLine at 839893'
}
