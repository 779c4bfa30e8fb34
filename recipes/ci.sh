#!/usr/bin/env bash
# The coverage job of a C or C++ project: builds it with --coverage, runs its tests and writes a report. Tracefiles of other jobs can
# be added. Copy ci.sh into a folder of your project (and intake beside it, for --empty skip) and run it in the project's top folder:
#
#     COVERAGE_BUILD='make CFLAGS="--coverage -O0"' COVERAGE_TEST='make check' ci/ci.sh --lines 80 jobs/*.info
#
# Or many jobs build and test, each keeps its coverage/all.info under a name of its own, and a last job merges these:
#
#     ci/ci.sh --no-html --test-name NAME && mkdir -p jobs && cp coverage/all.info jobs/NAME.info
#     ci/ci.sh --merge-only --lines 80 jobs/*.info
#
# The last job needs covcollect, genhtml (or --no-html), and a checkout in a folder of the same name, since tracefiles have absolute paths;
# it needs no compiler. --remove belongs to its call: all.info has every source. If one of the jobs never ran, no other tracefile shows it:
# start the last job only after all of them, or name each file, of which none may be missing, or say how many there are (--expect).
#
# ci.sh [OPTION]... [TRACEFILE]...
#
#     --merge-only       don't build and test: merge the tracefiles that are named, and nothing else
#     --empty skip       a tracefile without a record is reported and skipped, and one with inconsistent or skipped lines is reported and
#                        merged (default: fail, by covcollect combine --strict: where there is one that is packed, has no record, or has
#                        such lines, its job went wrong)
#     --expect N         with --merge-only: fail unless N tracefiles are named and read
#     --lines PERCENT    fail if fewer lines are hit, for example 80 or 79.95, as covcollect's --fail-under-lines
#     --remove PATTERN   leave out source files that match; can be repeated (default: '/usr/*')
#     --test-name NAME   the test name in the tracefile (default: unit)
#     --output FOLDER    the folder of results, which is replaced as a whole (default: coverage)
#     --jobs N           read N tracefiles at once (default: 4)
#     --no-html          don't run genhtml
#
# A value can also follow an equals sign, as in --lines=80, and after -- all words are tracefiles.
#
#     COVERAGE_BUILD     the command that builds with --coverage (default: make CFLAGS='--coverage -O0' LDFLAGS=--coverage)
#     COVERAGE_TEST      the command that runs the tests (default: make check)
#     COVERAGE_LINES     the same as --lines
#     COVERAGE_REMOVE    patterns like those of --remove, one on each line
#     COVERAGE_GENINFO   more options for geninfo, for example --checksum or --gcov-tool gcov-13
#     COVERAGE_GENHTML   more options for genhtml, for example --prefix /builds/project
#     COVCOLLECT         the program (default: covcollect)
#
# COVERAGE_BUILD and COVERAGE_TEST run in bash -euo pipefail, so each can be several commands. The folder of results has all.info
# (every source), own.info (without the removed ones), summary.txt and html/. If a step fails, the folder of the last run stays as it
# is. Tracefiles that are named may be of LCOV 1 or 2. The program must have combine.
#
# Standard error names each tracefile that is wrong:
#
#     jobs/unit.info: no record (begins with "<html>")
#
# Exit status: 0 done; 1 the tests wrote no counts, or a tracefile isn't there or can't be read; 2 wrong call, a program is missing, or
# a tracefile is named twice, also by two names; 3 no memory; 4 a tracefile is refused, or checksums clash; 5 a tracefile is packed, or has
# no record, or inconsistent or skipped lines, or there aren't as many as expected; 6 too few lines are hit (the results are written);
# otherwise the status of the command that failed.
set -euo pipefail

say() { printf 'ci.sh: %s\n' "$*" >&2; }
wrong() { say "$*"; exit 2; }
# A command that was killed says neither yes nor no.
lost() { say "$1 ended with status $2"; exit "$2"; } # COMMAND STATUS

threshold=${COVERAGE_LINES-}
patterns=()
while IFS= read -r pattern; do
    [ -z "$pattern" ] || patterns+=("$pattern")
done <<<"${COVERAGE_REMOVE-}"
build=${COVERAGE_BUILD-"make CFLAGS='--coverage -O0' LDFLAGS=--coverage"}
tests=${COVERAGE_TEST-make check}
name=unit
output=coverage
jobs=4
html=yes
capture=yes
empty=fail
expect=()
handed=()
while [ $# -gt 0 ]; do
    case ${1%%=*} in
        --lines|--remove|--test-name|--output|--jobs|--empty|--expect)
            [[ $1 != *=* ]] || set -- "${1%%=*}" "${1#*=}" "${@:2}"
            [ $# -gt 1 ] || wrong "$1 needs a value" ;;
    esac
    case $1 in
        --lines) threshold=$2; shift ;;
        --remove) patterns+=("$2"); shift ;;
        --test-name) name=$2; shift ;;
        --output) output=$2; shift ;;
        --jobs) jobs=$2; shift ;;
        --no-html) html=no ;;
        --merge-only) capture=no ;;
        --empty) empty=$2; shift ;;
        --expect) expect=(--expect "$2"); shift ;;
        --help) sed -n '2,/^set /{/^#/s/^# \{0,1\}//p}' "$0"; exit 0 ;;
        --) shift; handed+=("$@"); break ;;
        -*) wrong "unknown option $1, see ci.sh --help" ;;
        *) handed+=("$1") ;;
    esac
    shift
done
[ ${#patterns[@]} -gt 0 ] || patterns=('/usr/*')
case $empty in fail|skip) ;; *) wrong "--empty: $empty is neither fail nor skip" ;; esac
[ -n "$output" ] || wrong '--output: the name is empty'
[[ $jobs =~ ^0*([1-9]|[1-5][0-9]|6[0-4])$ ]] || wrong "--jobs: $jobs isn't a number from 1 to 64"
[ $capture = yes ] || [ ${#handed[@]} -gt 0 ] || wrong '--merge-only needs tracefiles'
if [ ${#expect[@]} -gt 0 ]; then
    [ $capture:$empty = no:fail ] || wrong '--expect goes with --merge-only, and not with --empty skip'
    [[ ${expect[1]} =~ ^[1-9][0-9]{0,5}$ ]] || wrong "--expect: ${expect[1]} isn't a number from 1 to 999999"
fi
here=$(cd "$(dirname "${BASH_SOURCE[0]}")" && pwd)
program=${COVCOLLECT-covcollect}
command -v "$program" >/dev/null || wrong "$program isn't there"
help=$("$program" --help 2>/dev/null </dev/null) || lost "$program" $?
[[ $help == *combine* ]] || wrong "$program has no combine, so it is older than ci.sh"
limits=()
if [ -n "$threshold" ]; then
    limits=(--fail-under-lines="$threshold")
    status=0
    "$program" summary "${limits[@]}" -- /dev/null >/dev/null 2>&1 || status=$?
    case $status in
        6) ;;
        2) wrong "--lines: $threshold isn't a percentage up to 100, such as 80 or 79.95" ;;
        *) lost "$program" $status ;;
    esac
fi
[ $capture = no ] || command -v geninfo >/dev/null || wrong "geninfo isn't there (it is part of lcov)"
[ $html = no ] || command -v genhtml >/dev/null || wrong "genhtml isn't there (it is part of lcov; or use --no-html)"
[ $empty = fail ] || [ -f "$here/intake" ] || wrong "$here/intake isn't there: copy it beside ci.sh"
for file in "${handed[@]}"; do
    [ -e "$file" ] || { say "$file isn't there"; exit 1; }
    [ ! -d "$file" ] || { say "$file is a folder, and no tracefile"; exit 1; }
done
# The folder of results is replaced at the end, by a rename. That it can be is seen here, before anything is built.
while [[ $output == */ ]]; do output=${output%/}; done
[[ $output != -* ]] || output=./$output
case ${output##*/} in ''|.|..) wrong "--output: ${output:-/} can't be replaced: choose another folder" ;; esac
# Only an empty folder, or one from an earlier run, is replaced. One that ls can't show may hold anything.
if [ -L "$output" ] && [ ! -e "$output" ]; then
    wrong "--output: $output is a link that leads nowhere: choose another folder"
elif [ -e "$output" ] && [ ! -f "$output/own.info" ]; then
    held=$(ls -A "$output" 2>/dev/null) || held=unknown
    [ -z "$held" ] || wrong "--output: $output exists and isn't a folder of results: choose another folder"
fi
status=0
mountpoint -q "$output" 2>/dev/null || status=$?
[ $status -ne 0 ] || wrong "--output: $output is a mount point, which can't be replaced: choose a folder in it"
[ $status -le 128 ] || lost mountpoint $status
top=$(dirname "$output")
mkdir -p "$top" 2>/dev/null && next=$(mktemp -d "$top/.coverage.XXXXXX" 2>/dev/null) || wrong "--output: $top can't be written"
clean() {
    trap "" INT TERM HUP
    # If the results of the last run were moved away and those of this one didn't come in their place.
    [ -e "$output" ] || [ ! -e "$next.old" ] || mv "$next.old" "$output"
    rm -rf "$next" "$next.old"
}
trap clean EXIT
trap 'exit 130' INT
trap 'exit 143' TERM HUP
chmod 755 "$next"

# covcollect reports what is wrong on standard error. Unless only the threshold isn't reached, the job ends with its status. Tracefiles,
# and their merge, may be larger than 64 MiB. What combine prints is the summary of all sources.
short=no
collect() { # FILE SUBCOMMAND WORDS...: runs covcollect, which writes FILE
    local file=$1 command=$2 status=0
    "$program" "$command" -o "$next/$file" "${@:3}" >/dev/null || status=$?
    case $status in
        0) ;;
        4) say "covcollect $command: a tracefile is refused or checksums clash, see above; $output is unchanged"; exit 4 ;;
        5) say "a tracefile is missing, has no record, or lines that don't fit, see above (or use --empty skip); $output is unchanged"; exit 5 ;;
        6) short=yes ;;
        *) say "covcollect $command failed with status $status; $output is unchanged"; exit $status ;;
    esac
}

# The tracefiles to be merged that aren't handed over, or are copies, are here.
mkdir "$next/parts"
files=()

# 1. Build and test. Without the find, counts of an earlier run in this folder would be added to those of this run.
run() { # WHAT COMMAND
    local status=0
    bash -euo pipefail -c "$2" || status=$?
    [ $status -eq 0 ] || { say "the $1 failed with status $status"; exit $status; }
}
if [ $capture = yes ]; then
    find . -name '*.gcda' -delete
    run build "$build"
    run tests "$tests"
    counts=$(find . -name '*.gcda' -print -quit)
    if [ -z "$counts" ]; then
        say "the tests wrote no counts (*.gcda): were they built with --coverage, in this folder?"
        exit 1
    fi
fi

# 2. Capture the counts, and a baseline with a count of 0 for every line that was compiled. Without the baseline, sources that no test
#    runs are missing and the rate is too high. LCOV 2 has another name for the branch option, and fails if a project has no branches
#    (empty).
old() { # TOOL: whether it is of LCOV 1
    local version
    version=$("$1" --version 2>/dev/null) || lost "$1" $?
    [[ $version == *' 1.'* ]]
}
if [ $capture = yes ]; then
    branches=branch_coverage=1 options=(--ignore-errors empty)
    ! old geninfo || branches=lcov_branch_coverage=1 options=()
    read -r -a more <<<"${COVERAGE_GENINFO-}"
    options+=(--quiet --rc "$branches" --test-name "$name" "${more[@]}")
    geninfo "${options[@]}" --initial --output-filename "$next/parts/baseline.info" . >&2
    geninfo "${options[@]}" --output-filename "$next/parts/counted.info" . >&2
    # geninfo 1.16 ends well where the find that it calls was killed.
    for part in baseline counted; do
        [ -s "$next/parts/$part.info" ] || { say "geninfo found nothing for the $part.info"; exit 1; }
    done
    files=("$next"/parts/*.info)
fi

# 3. Tracefiles of other jobs are merged as they are, by combine. With --empty skip, intake looks at each, and copies are merged.
merge=(merge --lcov2 --large)
if [ ${#handed[@]} -gt 0 ] && [ $empty = fail ]; then
    merge=(combine --strict --quiet "${expect[@]}")
    files+=("${handed[@]}")
elif [ ${#handed[@]} -gt 0 ]; then
    status=0
    printf '%s\0' "${handed[@]}" | bash "$here/intake" --empty skip "$next/parts" || status=$?
    case $status in
        0) ;;
        4) say "a tracefile is refused, see above; $output is unchanged"; exit 4 ;;
        *) say "the tracefiles couldn't be read or checked (status $status); $output is unchanged"; exit $status ;;
    esac
    files=("$next"/parts/*.info)
fi

# 4. Merge, remove what isn't the project's own, summarize and compare with the threshold.
collect all.info "${merge[@]}" --jobs "$jobs" -- "${files[@]}"
collect own.info remove --large -- "$next/all.info" "${patterns[@]}"
collect summary.txt summary --large "${limits[@]}" -- "$next/own.info"
rm -r "$next/parts"
if [ $html = yes ]; then
    # own.info has no end lines of functions. LCOV 2 would guess them, and stop at a lambda or a local class that is never called: its
    # lines would be those behind it too.
    options=(--rc branch_coverage=1 --rc derive_function_end_line=0)
    ! old genhtml || options=(--rc lcov_branch_coverage=1)
    read -r -a more <<<"${COVERAGE_GENHTML-}"
    genhtml --quiet "${options[@]}" --branch-coverage "${more[@]}" --output-directory "$next/html" "$next/own.info" >&2
fi

# 5. Replace the results of the last run.
[ ! -e "$output" ] || mv "$output" "$next.old"
mv "$next" "$output"
cat "$output/summary.txt"
[ $short = no ] || exit 6
