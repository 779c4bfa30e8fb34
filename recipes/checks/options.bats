#!/usr/bin/env bats
# The options of ci.sh, changed-lines and merge-farm have one form.
#
# need git git

load common

# A call that ends with status 2 and this message.
refused() { # RECIPE MESSAGE WORD...
    local recipe=$1 message=$2
    shift 2
    call "$recipes/$recipe" "$@"
    # A tracefile that isn't there is no wrong call.
    ended "$([[ $message == *".info isn't there" ]] && echo 1 || echo 2)" "${recipe##*/}: $*"
    says "$work/err" "${recipe##*/}: and why" "${recipe##*/}: $message"
}
# What holds for each recipe.
form() { # RECIPE OPTION FLAG: an option with a value, and one without
    local name=${1##*/}
    refused "$1" "unknown option --no-such, see $name --help" --no-such
    refused "$1" "unknown option --no-such=1, see $name --help" --no-such=1
    refused "$1" "unknown option -x, see $name --help" -x
    refused "$1" "$2 needs a value" "$2"
    [ -z "$3" ] || refused "$1" "unknown option $3=1, see $name --help" "$3=1"
    call "$recipes/$1" --help
    ended 0 "$name: --help"
    holds "$name: which prints its first comment" [ "$(cat "$work/out")" = "$(sed -n '2,/^set /s/^# \{0,1\}//p' "$recipes/$1")" ]
    holds "$name: on standard output alone" [ ! -s "$work/err" ]
}

@test "ci.sh" {
    form ci.sh --lines --no-html
    refused ci.sh "--lines: 101 isn't a percentage up to 100, such as 80 or 79.95" --lines 101
    refused ci.sh "--lines: -1 isn't a percentage up to 100, such as 80 or 79.95" --lines=-1
    refused ci.sh "--lines: 1=2 isn't a percentage up to 100, such as 80 or 79.95" --lines=1=2
    refused ci.sh '--empty: maybe is neither fail nor skip' --empty=maybe
    refused ci.sh "--x.info isn't there" --merge-only --no-html -- --x.info
    refused ci.sh "a=b.info isn't there" --merge-only --no-html a=b.info
    refused ci.sh '--output: the name is empty' --output= a.info
    refused ci.sh "--jobs: 0 isn't a number from 1 to 64" --jobs=0
    refused ci.sh "--jobs: 65 isn't a number from 1 to 64" --jobs 65
    refused ci.sh "--expect: 0 isn't a number from 1 to 999999" --merge-only --expect=0 a.info
    refused ci.sh "--expect: 0x2 isn't a number from 1 to 999999" --merge-only --expect 0x2 a.info
    refused ci.sh '--expect goes with --merge-only, and not with --empty skip' --expect 2
    refused ci.sh '--expect goes with --merge-only, and not with --empty skip' --merge-only --expect 2 --empty skip a.info
}

@test "changed-lines" {
    git init -q .
    form changed-lines --prefix ''
    refused changed-lines '--lines: 101 is above 100' --lines 101 main x.info
    refused changed-lines '--lines: 101 is above 100' main --lines=101 x.info
    refused changed-lines "--base isn't a commit here" -- --base x.info
    refused changed-lines 'needs two arguments or more: BASE and TRACEFILE, see changed-lines --help' --prefix=/x main
}

@test "merge-farm" {
    form slurm/merge-farm --share --no-wait
    refused slurm/merge-farm "--share: 0 isn't a number above 0" --share 0
    refused slurm/merge-farm "--share: 0 isn't a number above 0" --share=0
    refused slurm/merge-farm '--check: maybe is neither fail nor skip' --check=maybe farm.info x
    refused slurm/merge-farm '--files needs one argument: OUT' --files=list
    refused slurm/merge-farm "--folder isn't a folder" -- --out --folder
}
