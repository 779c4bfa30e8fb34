# What the suites meson, cmake and autotools share: a project of many sources and tests, and a look at each call of lcov that its build
# makes. Loaded after common.
# shellcheck shell=bash

# 64 sources and 40 tests. Test N calls unit_N to unit_N+4 once each. So, by hand, unit_20 is called 5 times, unit_2 twice, unit_44 once
# and unit_60 never. The last source is in C++; each test calls its template once for int and once for double.
many_sources() { # FOLDER
    local number
    mkdir -p "$1/src" "$1/tests"
    for ((number = 1; number <= 64; number++)); do
        awk -v unit="$number" 'BEGIN {
            for (part = 1; part <= 20; part++)
                printf "static int part_%d(int x) {\n    int sum = 0;\n    for (int i = 0; i < x %% %d; i++)\n        sum += i;\n" \
                    "    if (x > %d && sum < 5)\n        return sum - x;\n    return sum;\n}\n", part, part + 2, part * unit
            printf "int unit_%d(int x) {\n    int sum = 0;\n", unit
            for (part = 1; part <= 20; part++) printf "    sum += part_%d(x + %d);\n", part, part
            print "    return sum;\n}"
        }' >"$1/src/unit_$number.c"
    done
    rm "$1/src/unit_64.c"
    cat >"$1/src/unit_64.cc" <<'END'
#include <stdexcept>
template <class T> T half(T x) {
    if (x < 0)
        throw std::runtime_error("negative");
    return x / 2;
}
extern "C" int unit_64(int x) {
    return half(x) + (int)half(x + 0.5);
}
END
    for ((number = 1; number <= 40; number++)); do
        awk -v test="$number" 'BEGIN {
            for (unit = test; unit < test + 5; unit++) printf "int unit_%d(int);\n", unit
            print "int unit_64(int);\nint main(void) {\n    int sum = 0;"
            for (unit = test; unit < test + 5; unit++) printf "    sum += unit_%d(%d);\n", unit, test
            print "    sum += unit_64(2);\n    return sum == 12345678;\n}"
        }' >"$1/tests/test_$number.c"
    done
}
by_hand() { # WHAT FILE
    says "$2" "$1: counts worked out by hand" FNDA:5,unit_20 FNDA:2,unit_2 FNDA:1,unit_44 FNDA:40,_Z4halfIiET_S0_ FNDA:40,_Z4halfIdET_S0_
}
by_baseline() { # WHAT
    says "$work/standin.info" "$1: a source that no test uses counts" FNDA:0,unit_60
}

# A command that finds lcov in PATH: the real one alone, or the stand-in before it. Each call's processor time and words go to
# calls.WHICH, and the words of those that reach the real lcov to real.WHICH.
with_lcov() { # WHICH COMMAND...: WHICH is real or standin
    local which=$1 next=$work/real/lcov path=$work/real:$PATH
    shift
    mkdir -p "$work/timed" "$work/real" "$work/standin"
    cat >"$work/timed/lcov" <<'END'
#!/bin/bash
TIMEFORMAT='%3U %3S'
{ time "$LCOV_NEXT" "$@" 2>&3; } 3>&2 2>"$LCOV_CALLS.time"
status=$?
printf '%s %s\n' "$(cat "$LCOV_CALLS.time")" "$*" >>"$LCOV_CALLS"
exit $status
END
    printf '#!/bin/bash\nprintf "%%s\\n" "$*" >>"$LCOV_REAL"\nexec %s "$@"\n' "$(PATH=$PATH command -v lcov)" >"$work/real/lcov"
    cp "$recipes/lcov" "$work/standin/lcov"
    chmod +x "$work"/*/lcov
    if [ "$which" = standin ]; then
        next=$work/standin/lcov path=$work/standin:$path
    fi
    rm -f "$work/calls.$which" "$work/real.$which"
    : >"$work/real.$which"
    call env PATH="$work/timed:$path" LCOV_NEXT="$next" LCOV_CALLS="$work/calls.$which" LCOV_REAL="$work/real.$which" "$@"
}
# Runs the command with the real lcov and with the stand-in, and compares the tracefile that each leaves.
both() { # WHAT TRACEFILE CALLS COMMAND...: CALLS is how many calls merge or filter
    local what=$1 tracefile=$2 calls=$3 which
    shift 3
    for which in real standin; do
        rm -f "$tracefile"
        with_lcov "$which" "$@"
        ended 0 "$what, with ${which/standin/the stand-in before the real} lcov"
        cp "$tracefile" "$work/$which.info"
        even "$work/$which.info" >"$work/$which.even"
        by_hand "$what" "$work/$which.info"
    done
    same "$work/real.even" "$work/standin.even" "$what: the records are those of the real lcov alone"
    holds "$what: the records are many" [ "$(wc -l <"$work/real.even")" -gt 5000 ]
    holds "$what: of the calls, $calls merge or filter" [ "$(merges "$work/calls.standin" | wc -l)" -eq "$calls" ]
    merges "$work/real.standin" >"$work/left"
    same /dev/null "$work/left" "$what: and none of these reaches the real lcov"
    holds "$what: which does the others" [ -s "$work/real.standin" ]
    show <<<"time   $what: $calls calls that merge or filter, processor time: real lcov $(seconds real), stand-in $(seconds standin)"
}
merges() { grep -vE -- '-?-(capture|zerocounters|directory \. -z|c|z|version)( |$)' "$1" || true; } # FILE
seconds() { merges "$work/calls.$1" | awk '{ sum += $1 + $2 } END { printf "%.2f s", sum }'; } # WHICH
# Each record after its test and source, sorted, since lcov writes functions in any order; and without FNF:0 and FNH:0, which covcollect
# doesn't write.
even() { # FILE
    awk '/^TN:/ { test = $0; next } /^SF:/ { source = $0 } /^FNF:0$/ { none = 1; next } /^FNH:0$/ && none { next }
        { none = 0; print test " " source " " $0 }' "$1" | sort
}
