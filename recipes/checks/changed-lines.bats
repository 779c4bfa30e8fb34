#!/usr/bin/env bats
# changed-lines: the lines of a branch, in a repository by hand and in a project.
#
# need git git
# need gcc gcc
# need make make
# need lcov geninfo
# need gawk gawk
# need mawk mawk
# need busybox busybox

load common
load projects

changed=$recipes/changed-lines

# What git reads of its user.
git_user() {
    printf '[user]\nname = check\nemail = check@example.org\n[init]\ndefaultBranch = main\n' >config
}

# The folder repository, with the branches main and branch.
changed_repository() {
    mkdir -p repository/sub
    git init -q repository
    cd repository || return
    seq 1 20 >'sub/a b.c'
    cp 'sub/a b.c' $'tab\t"quoted"\\.c'
    cp 'sub/a b.c' $'\303\244.c'
    seq 101 140 >old.c
    seq 201 240 >moved.c
    echo gone >gone.c
    printf 'no line feed at the end' >end.c
    git add . && git commit -qm first
    git checkout -qb branch
    sed -i '3s/.*/changed/; 5,6d; 10s/$/\nadded\nadded/' 'sub/a b.c'
    sed -i '1s/.*/++ b\/sub\/a b.c/; 2s/.*/changed/; 3s/.*/-- a/' $'tab\t"quoted"\\.c'
    sed -i '20s/.*/changed/' $'\303\244.c'
    git mv old.c new.c
    sed -i '40s/.*/changed/' new.c
    git mv moved.c sub/moved.c
    git rm -q gone.c
    printf 'another end' >end.c
    printf '1\n2\n3\n' >added.c
    git add . && git commit -qm branch
    # What came to main since then doesn't count.
    git checkout -q main
    sed -i '18s/.*/later/' 'sub/a b.c'
    git commit -qam later
    git checkout -q branch
    cd ..
}

# Its tracefiles zero.info and second.info. $top is the repository.
counts() {
    local path
    top=$PWD/repository
    # In the new text of 'a b.c' two lines are gone above line 8, so lines 3, 9 and 10 are those that changed. The changed lines with
    # counts: 3 (not run), 9 (run by the second test alone) and 10 (not run) of it, 1 and 2 (not run) and 3 (run) of the quoted name,
    # 20 (not run) of the one in UTF-8, 40 (run) of new.c, 1 (not run) of end.c, 2 (not run) and 3 (run) of added.c: 4 of 11 are run.
    {
        for path in sub/a\ b.c $'tab\t"quoted"\\.c' $'\303\244.c' old.c moved.c new.c sub/moved.c gone.c end.c; do
            echo "SF:$top/$path"
            seq 1 45 | sed 's/.*/DA:&,0/'
            echo end_of_record
        done
        # Taken as the repository's, since it doesn't begin with /.
        printf 'SF:added.c\nDA:2,0\nDA:3,1\nend_of_record\n'
        printf 'SF:/usr/include/added.c\nDA:1,0\nend_of_record\n'
    } >zero.info
    {
        printf 'TN:second\nSF:%s/sub/a b.c\nDA:9,340282366920938463463374607431768211455\nDA:8,1\nend_of_record\n' "$top"
        printf 'SF:%s/tab\t"quoted"\\.c\nDA:3,1\nend_of_record\nSF:%s/new.c\nDA:40,10\nend_of_record\n' "$top" "$top"
    } >second.info
}

# No setting of this machine's git or of its user counts.
git_alone() {
    export GIT_CONFIG_GLOBAL=$PWD/config GIT_CONFIG_NOSYSTEM=1
    git_user
}

@test "a repository by hand" {
    local awk
    git_alone
    changed_repository
    counts
    cat >wanted <<END
added.c:2: changed and not run
end.c:1: changed and not run
sub/a b.c:3: changed and not run
sub/a b.c:10: changed and not run
$(printf 'tab\t')"quoted"\\.c:1: changed and not run
$(printf 'tab\t')"quoted"\\.c:2: changed and not run
$(printf '\303\244').c:20: changed and not run
END
    for awk in mawk gawk busybox; do
        rm -rf bin
        mkdir bin
        ln -s "$(command -v $awk)" bin/awk
        call env -C repository PATH="$PWD/bin:$PATH" "$changed" --lines 36.36 main ../zero.info ../second.info
        ended 0 "changed-lines: 4 of 11 lines are 36.36%, by $awk"
        same wanted "$work/out" "changed-lines: the lines worked out by hand, by $awk"
        says "$work/err" 'changed-lines: and how many are run' 'changed-lines: 4 of 11 changed lines are run'
    done
    call env -C repository/sub "$changed" --lines 36.37 main ../../zero.info ../../second.info
    ended 6 "changed-lines: 4 of 11 lines aren't 36.37%"
    same wanted "$work/out" 'changed-lines: the same lines, called in a folder below'
    # What a user may have set.
    printf '[diff]\nnoprefix = true\nexternal = false\nrenames = false\ninterHunkContext = 9\nrelative = true\n' >>config
    printf '[color]\nui = always\n[core]\nquotePath = true\n' >>config
    call env -C repository/sub "$changed" main ../../zero.info ../../second.info
    ended 0 'changed-lines: without a threshold nothing fails'
    same wanted "$work/out" "changed-lines: the same lines, whatever the user's settings are"
}

@test "what is refused" {
    git_alone
    changed_repository
    counts
    sed "s|^SF:$top/|SF:/builds/7/|" zero.info >elsewhere.info
    call env -C repository "$changed" --prefix /builds/7 main ../elsewhere.info
    ended 0 'changed-lines: with another prefix'
    holds 'changed-lines: all but one line of the first test are named' [ "$(wc -l <"$work/out")" -eq 10 ]
    printf 'SF:/builds/7/end.c\nDA:1,0\nend_of_record\n' >none.info
    call env -C repository "$changed" main ../none.info
    ended 2 'changed-lines: a prefix that no path has'
    says "$work/err" 'changed-lines: and it is told' "changed-lines: no path of the tracefiles begins with $top/, see --prefix"
    call env -C repository "$changed" --lines 100 branch ../zero.info
    ended 0 'changed-lines: where nothing changed, nothing fails'
    echo 21 >>'repository/sub/a b.c'
    call env -C repository "$changed" --lines 100 branch ../zero.info
    ended 6 'changed-lines: what is changed and not committed counts'
    same <(echo 'sub/a b.c:21: changed and not run') "$work/out" 'changed-lines: and is named'
    git -C repository checkout -q .
    head -c -20 zero.info >cut.info
    call env -C repository "$changed" main ../second.info ../cut.info
    ended 4 'changed-lines: a tracefile that was cut off is refused'
    says "$work/err" 'changed-lines: and named' '../cut.info: refused OpenEnd'
    call env -C repository "$changed" main ../nothing.info
    ended 1 "changed-lines: a tracefile that isn't there"
    call env -C repository "$changed" nothing ../zero.info
    ended 2 "changed-lines: a commit that isn't there"
    call "$changed" main zero.info
    ended 2 'changed-lines: no repository'
    git clone -q --depth 1 --branch branch "file://$top" short
    git -C short fetch -q --depth 1 origin main
    call env -C short "$changed" FETCH_HEAD ../zero.info
    ended 2 'changed-lines: a history that is too short'
    call env -C repository "$changed" main
    ended 2 'changed-lines: no tracefile'
    call env -C repository "$changed" --lines 101 main ../zero.info
    ended 2 'changed-lines: a threshold above 100'
    only 'changed-lines: nothing is left' repository .git added.c end.c new.c sub $'tab\t"quoted"\\.c' $'\303\244.c'
}

@test "a project" {
    git_alone
    project project
    git init -q project
    git -C project add . && git -C project commit -qm first && git -C project checkout -qb branch
    # Three lines with counts, of which a test runs the first and the last, and a comment.
    sed -i '2s/.*/    if (x > 1000)\n        return 0;\n    return x + x;/; $s/$/\n\/\/ the end/' project/src/twice.c
    git -C project commit -qam branch
    call env -C project ci/ci.sh --no-html
    ended 0 'changed-lines: a project is captured by ci.sh'
    call env -C project "$changed" --lines 67 main coverage/own.info
    ended 6 "changed-lines: 2 of 3 changed lines aren't 67%"
    same <(echo 'src/twice.c:3: changed and not run') "$work/out" 'changed-lines: the line that no test runs'
    says "$work/err" 'changed-lines: the comment does not count' 'changed-lines: 2 of 3 changed lines are run'
}
