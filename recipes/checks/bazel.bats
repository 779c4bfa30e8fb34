#!/usr/bin/env bats
# bazel/: covcollect as the merger of a small workspace (data/bazel) in Debian's Bazel 4, which may load nothing; and the script called by
# hand. Both are compared with Bazel's Java program, which is compiled here from Debian's source package, if that can be had.
#
# need bazel-bootstrap bazel
# need g++ g++
# need gcc gcov
# need busybox busybox
# need libjcommander-java test -e /usr/share/java/jcommander.jar
# need libgoogle-gson-java test -e /usr/share/java/gson.jar
# need libjsr305-java test -e /usr/share/java/jsr305.jar
# need xz-utils xz

load common
load projects

setup_file() {
    top=$BATS_FILE_TMPDIR
    cp -r "$BATS_TEST_DIRNAME/data/bazel" "$top/workspace"
    rules
    repository "$top/covcollect"
    if java_program >"$top/java.log" 2>&1; then
        java_repository "$top/java"
    else
        mv "$top/java.log" "$top/no-java"
    fi
    # Java's reports first: whatever it leaves behind, what is there at the end is covcollect's.
    [ -e "$top/no-java" ] || coverage "$top/java" "$top/of-java" --test_env=COVERAGE_GCOV_OPTIONS=-b
    coverage "$top/covcollect" "$top/of-covcollect" --test_env=COVERAGE_GCOV_OPTIONS=-b
}
# With --batch Bazel leaves no process in the background.
coverage() { # REPOSITORY RESULTS WORDS...: leaves the status, what is said, the report and what each test left
    local repository=$1 results=$2 status=0 rules
    shift 2
    mkdir "$results"
    rules=$(printf -- '--override_repository=%s ' "rules_cc=$top/rules/cc" "rules_java=$top/rules/java" "rules_proto=$top/rules/proto")
    # shellcheck disable=SC2086
    (cd "$top/workspace" && bazel --batch --output_user_root="$top/bazel" coverage $rules \
        --override_repository=remote_coverage_tools="$repository" --experimental_repository_disable_download \
        --define=distribution=debian --host_javabase=@local_jdk//:jdk --jobs=2 --instrumentation_filter=//,@extlib// \
        --combined_report=lcov --keep_going "$@" //...) >"$results/said" 2>&1 3>&- 4>&- </dev/null || status=$?
    echo "$status" >"$results/status"
    cp "$top/workspace/bazel-out/_coverage/_coverage_report.dat" "$results/report.dat" || true
    cp -rL "$top/workspace/bazel-testlogs" "$results/tests" || true
}
# What Bazel's own files load, without which it would fetch it: the rules, which in Bazel 4 are built in.
rules() {
    local language name
    rule() { # NAME
        printf 'def %s(**words):\n    native.%s(**words)\n' "$1" "$1"
    }
    for language in cc java proto; do
        mkdir -p "$top/rules/$language/$language"
        echo "workspace(name = \"rules_$language\")" >"$top/rules/$language/WORKSPACE"
        : >"$top/rules/$language/$language/BUILD"
    done
    for name in cc_binary cc_library cc_test cc_proto_library cc_toolchain cc_toolchain_suite; do
        rule $name
    done >"$top/rules/cc/cc/defs.bzl"
    for name in java_binary java_import java_library java_test java_toolchain java_runtime java_proto_library; do
        rule $name
    done >"$top/rules/java/java/defs.bzl"
    for name in proto_library proto_lang_toolchain; do
        rule $name
    done >"$top/rules/proto/proto/defs.bzl"
}
repository() { # FOLDER: as the page says
    cp -r "$recipes/bazel" "$1"
    mkdir "$1/parts"
    cp "$recipes/gcov-json.awk" "$1/parts"
    cp "$COVCOLLECT" "$1/parts/covcollect"
}

# --- the Java program -----------------------------------------------------------------------------------------------------------

java_program() {
    local apt=$top/apt jars=/usr/share/java release options sources classes
    release=$(. /etc/os-release && echo "$VERSION_CODENAME")
    mkdir -p "$apt/lists/partial" "$apt/cache/archives/partial" "$top/source" "$top/classes"
    echo "deb-src [signed-by=/usr/share/keyrings/debian-archive-keyring.gpg] $(mirror) $release main" >"$apt/sources.list"
    options=(-q -o Dir::Etc::SourceList="$apt/sources.list" -o Dir::Etc::SourceParts=/dev/null -o Dir::State::Lists="$apt/lists"
        -o Dir::Cache="$apt/cache" -o Acquire::Languages=none -o Debug::NoLocking=1 -o APT::Sandbox::User="$(id -un)"
        -o Acquire::http::Timeout=20 -o Acquire::Retries=1)
    cd "$top/source" || return 1
    apt-get "${options[@]}" update || return 1
    apt-get "${options[@]}" source --download-only bazel-bootstrap || return 1
    tar -xf bazel-bootstrap_*.orig.tar.* --wildcards '*/CoverageOutputGenerator/java/*.java' || return 1
    sources=$(find . -name LcovMergerFlags.java -printf %h)
    # JCommander 1.71 takes options that begin with -- anyhow, and has no such word.
    sed -i 's/, optionPrefixes = "--"//' "$sources/LcovMergerFlags.java" || return 1
    classes=$(printf "$jars/%s.jar:" guava auto-value auto-value-annotations gson jcommander jsr305)
    javac -nowarn -d "$top/classes" -cp "$classes" -processor com.google.auto.value.processor.AutoValueProcessor \
        -processorpath "$classes$(printf "$jars/%s.jar:" auto-common javapoet escapevelocity auto-service auto-service-annotations)" \
        "$sources"/*.java || return 1
    printf '#!/bin/sh\nexec java -cp %s com.google.devtools.coverageoutputgenerator.Main "$@"\n' "$classes$top/classes" >"$top/java-merger"
    chmod +x "$top/java-merger"
}
mirror() {
    local mirror
    mirror=$(apt-get indextargets --format '$(SITE)' 'Created-By: Packages' 2>/dev/null | grep '/debian$' | head -n 1)
    echo "${mirror:-http://deb.debian.org/debian}"
}
java_repository() { # FOLDER
    mkdir "$1"
    echo 'workspace(name = "remote_coverage_tools")' >"$1/WORKSPACE"
    cp "$top/java-merger" "$1/merger.sh"
    cat >"$1/BUILD" <<'END'
package(default_visibility = ["//visibility:public"])
sh_binary(name = "lcov_merger", srcs = ["merger.sh"])
sh_binary(name = "coverage_report_generator", srcs = ["merger.sh"])
END
}
needs_java() {
    top=$BATS_FILE_TMPDIR
    [ ! -e "$top/no-java" ] || skip "the source package bazel-bootstrap can't be had or compiled: $(tail -n 1 "$top/no-java")"
}
# Each line after its source, sorted: without TN: lines, which the Java program doesn't write, and without FNF:0 and FNH:0, which covcollect
# doesn't.
lines_of() { # FILE
    awk '/^TN:/ { next } /^SF:/ { source = $0 } /^FNF:0$/ { none = 1; next } /^FNH:0$/ && none { next }
        { none = 0; print source " " $0 }' "$1" | sort
}

# --- the scenarios --------------------------------------------------------------------------------------------------------------

@test 'a workspace' {
    top=$BATS_FILE_TMPDIR/of-covcollect
    holds "bazel: status 3, since a test failed" [ "$(cat "$top/status")" -eq 3 ]
    # By the comments of the tests: six calls of clamp, of which two are below, two between, two above. Three calls of larger, of which
    # one is of double, and in one b is larger. As branches, the condition's truth comes first. The line of } isn't counted.
    printf '%s\n' TN: SF:base/base.cc FN:3,_Z5clampiii FN:10,_Z5neveri FNDA:6,_Z5clampiii FNDA:0,_Z5neveri FNF:2 FNH:1 \
        BRDA:4,0,0,2 BRDA:4,0,1,4 BRDA:6,0,0,2 BRDA:6,0,1,2 BRF:4 BRH:4 DA:3,6 DA:4,6 DA:5,2 DA:6,4 DA:7,2 DA:8,2 DA:10,0 DA:11,0 \
        LF:8 LH:6 end_of_record \
        TN: SF:base/base.h FN:6,_ZNK4PairIdE6largerEv FN:6,_ZNK4PairIiE6largerEv FNDA:1,_ZNK4PairIdE6largerEv \
        FNDA:2,_ZNK4PairIiE6largerEv FNF:2 FNH:2 BRDA:7,0,0,1 BRDA:7,0,1,2 BRF:2 BRH:2 DA:6,3 DA:7,3 DA:8,1 DA:9,2 LF:4 LH:4 end_of_record \
        TN: SF:other/own.py DA:1,3 DA:2,0 LF:2 LH:1 end_of_record >wanted
    same wanted "$top/report.dat" 'bazel: the report is the one worked out by hand, without the other repository'
    for shard in 1 2 3; do
        grep -E '^FNDA:.*clamp|^DA:[578],' "$top/tests/base/sharded_test/shard_${shard}_of_3/coverage.dat" | tr '\n' ' '
        echo
    done >shards
    printf 'FNDA:1,_Z5clampiii %s \n' 'DA:5,1 DA:7,0 DA:8,0' 'DA:5,0 DA:7,0 DA:8,1' 'DA:5,0 DA:7,1 DA:8,0' >wanted
    same wanted shards 'bazel: each shard has its own call'
    holds 'bazel: a test that leaves a bad tracefile fails' grep -q '^//other:bad_test .*FAILED' "$top/said"
    holds 'bazel: and its log names file and line' grep -qE '/own\.dat: refused BadLine at 2$' "$top/tests/other/bad_test/test.log"
    holds 'bazel: a test without coverage passes' grep -q '^//other:plain_test .*PASSED' "$top/said"
    same /dev/null "$top/tests/other/plain_test/coverage.dat" 'bazel: and leaves an empty file'
    holds 'bazel: and its log says so' grep -qxF 'covcollect-bazel: there is no coverage' "$top/tests/other/plain_test/test.log"
}

@test 'names of tests' {
    top=$BATS_FILE_TMPDIR
    coverage "$top/covcollect" "$work/named" --test_env=COVCOLLECT_TEST_NAMES=1
    holds "bazel: status 3, with names" [ "$(cat "$work/named/status")" -eq 3 ]
    grep -E '^TN:|^SF:|^FNDA:.*clamp|^BRDA:' "$work/named/report.dat" | tr '\n' ' ' >names
    # By source, then by test.
    printf '%s ' TN://base:one_test SF:base/base.cc FNDA:1,_Z5clampiii TN://base:sharded_test SF:base/base.cc FNDA:3,_Z5clampiii \
        TN://base:two_test SF:base/base.cc FNDA:2,_Z5clampiii TN://base:one_test SF:base/base.h TN://base:two_test SF:base/base.h \
        TN://other:own_test SF:other/own.py >wanted
    same wanted names "bazel: each test's counts stand under its label, those of shards together; without -b there are no branches"
    # Bazel keeps what it has: of a changed test alone anything is made again.
    sed -i 's/clamp(2, 1, 3) == 2/clamp(2, 1, 3) + clamp(3, 1, 3) == 5/' "$top/workspace/base/one_test.cc"
    coverage "$top/covcollect" "$work/changed" --test_env=COVCOLLECT_TEST_NAMES=1
    holds 'bazel: a changed test is run again, and others are not' \
        [ "$(grep -c '(cached) PASSED' "$work/changed/said") $(grep -c '^//base:one_test  *PASSED' "$work/changed/said")" = '4 1' ]
    grep -E '^FNDA:.*clamp' "$work/changed/report.dat" | tr '\n' ' ' >said
    printf 'FNDA:2,_Z5clampiii FNDA:3,_Z5clampiii FNDA:2,_Z5clampiii ' >wanted
    same wanted said 'bazel: and the report has its new counts'
}

@test 'against the Java program' {
    needs_java
    holds 'bazel: with the Java program the bad tracefile is taken' [ "$(cat "$top/of-java/status")" -eq 0 ]
    for report in report.dat tests/base/one_test/coverage.dat tests/base/two_test/coverage.dat tests/other/own_test/coverage.dat \
        tests/base/sharded_test/shard_{1,2,3}_of_3/coverage.dat; do
        for merger in java covcollect; do
            lines_of "$top/of-$merger/$report" >"all.$merger"
            grep -vE ' BR(DA|F|H):' "all.$merger" >"$merger" || true
        done
        holds "bazel: $report has lines" [ -s java ]
        same java covcollect "bazel: $report: all but the branches are those of the Java program"
        case $report in
            report.dat|*/two_test/*) ;;
            *) same all.java all.covcollect "bazel: $report: and the branches" ;;
        esac
    done
    # Two instances of a template in one test, and one in another: the Java program has one of three conditions.
    for merger in java covcollect; do lines_of "$top/of-$merger/report.dat" >"$merger"; done
    diff java covcollect | sed -n 's/^[<>] //p' | sed 's/,[0-9]*$//' | sort -u >differing || true
    printf 'SF:base/base.h %s\n' BRDA:7,0,0 BRDA:7,0,1 BRH:1 BRH:2 >wanted
    same wanted differing 'bazel: the branches that differ are those of the template'
    says java 'bazel: where the Java program loses two of three' 'SF:base/base.h BRDA:7,0,0,0' 'SF:base/base.h BRDA:7,0,1,1'
}

# A folder such as Bazel's after a test: a tracefile with branches, gcov's JSON of a program, text of an older gcov, and what isn't coverage.
folder() {
    mkdir -p c in/deep
    (cd c && programs && g++ --coverage -O0 -o half half.cpp && gcc --coverage -O0 -o tiny tiny.c && ./tiny && ./tiny && ./half &&
        gcov -b -i half.gcda tiny.gcda) >"$work/log"
    mv c/*.gcov.json.gz in/deep
    printf '%s\n' TN:x SF:tiny.c FN:1,twice FNDA:1,twice DA:2,1 DA:3,0 BRDA:2,0,0,4 BRDA:2,0,1,- end_of_record \
        SF:lib/x.py DA:1,0 end_of_record SF:gen/x.pb.h DA:1,1 end_of_record SF:gen/xxpb.h DA:1,1 end_of_record SF:old.h DA:9,1 end_of_record >in/a.dat
    printf '%s\n' version:8.3.0 cwd:/x file:old.c function:1,2,3,f function:4,0,g lcount:1,3,0 lcount:4,0 branch:1,taken branch:1,nottaken \
        branch:4,notexec file:new.h lcount:9,2,1 branch:9,nottaken >in/o.gcov
    echo 'no tracefile' >in/notes.txt
    printf '%s\n' tiny.c x.gcno new.h gen/x.pb.h gen/xxpb.h half.cpp >manifest
    printf '%s\n' old.c:new.h old.h:new.h nothing.c:else.c a:b:c >replaced
}
# The script with what it finds beside it, but for the program, which the checks name.
merger() { # WORDS...
    mkdir -p beside
    cp "$recipes/bazel/covcollect-bazel" "$recipes/gcov-json.awk" beside
    call beside/covcollect-bazel "$@"
}

@test 'the script, by hand' {
    folder
    merger --coverage_dir=in --output_file=out.dat
    ended 0 'covcollect-bazel: all kinds of coverage'
    says out.dat 'covcollect-bazel: text of gcov before GCC 9, by hand' SF:old.c FN:1,f FNDA:3,f FN:4,g FNDA:0,g DA:1,3 DA:4,0 \
        BRDA:1,0,0,1 BRDA:1,0,1,0 BRDA:4,0,0,- SF:new.h DA:9,2 BRDA:9,0,0,0
    # tiny runs twice; a.dat has one call more.
    says out.dat 'covcollect-bazel: JSON and a tracefile are added, by hand' SF:tiny.c FNDA:7,twice DA:2,7 DA:3,0 BRDA:2,0,0,4 BRDA:2,0,1,- \
        SF:half.cpp FNDA:3,_Z4halfIiET_S0_ FNDA:1,_Z4halfIdET_S0_ DA:5,1 DA:6,3 DA:18,0
    holds "covcollect-bazel: a test's own name goes" [ "$(grep '^TN:' out.dat | sort -u)" = TN: ]
    merger --coverage_dir in --output_file out.dat --source_file_manifest=manifest --sources_to_replace_file=replaced \
        --filter_sources='lib/.*' \
        --filter_sources='.*/x\.pb\.h' --filter_sources=half --unknown=1 --parse_parallelism=3
    ended 0 'covcollect-bazel: with filters, manifest and other names'
    # x.py is filtered. old.c and old.h are new.h. half.cpp isn't "half" as a whole, and a dot that isn't any character isn't in xxpb.h.
    holds 'covcollect-bazel: which leave' [ "$(sed -n 's/^SF://p' out.dat | tr '\n' ' ')" = 'gen/xxpb.h half.cpp new.h tiny.c ' ]
    says out.dat 'covcollect-bazel: two sources that became one are added' DA:9,3 DA:1,3
    COVCOLLECT_TEST_NAMES=1 TEST_TARGET=//a:b merger --coverage_dir=in --output_file=out.dat
    holds "covcollect-bazel: the test's label as name" [ "$(grep '^TN:' out.dat | sort -u)" = TN://a:b ]

    # At the end.
    mkdir r
    for number in $(seq 450); do
        printf 'TN:t%d\nSF:/x.c\nDA:1,1\nDA:%d,%d\nend_of_record\n' $((number % 2)) $((number % 2 + 2)) "$number" >r/$number.dat
        echo "r/$number.dat"
    done >list
    printf 'SF:/base.c\nDA:1,0\nend_of_record\n' >r/baseline_coverage.dat
    printf 'r/baseline_coverage.dat\nr/empty.dat' >>list
    : >r/empty.dat
    merger --reports_file=list --output_file=out.dat
    ended 0 'covcollect-bazel: a list of 450 reports, more than one call merges'
    # The odd numbers to 449 have the sum 225 * 225, the even ones to 450 225 * 226.
    printf '%s\n' TN:t0 SF:/x.c DA:1,225 DA:2,50850 LF:2 LH:2 end_of_record TN:t1 SF:/x.c DA:1,225 DA:3,50625 LF:2 LH:2 end_of_record >wanted
    same wanted out.dat 'covcollect-bazel: their sums, by hand, without the baseline'

    cp out.dat before.dat
    printf '\nr/none.dat' >>list
    merger --reports_file=list --output_file=out.dat
    ended 1 "covcollect-bazel: a report that isn't there"
    holds 'covcollect-bazel: which is named' grep -q '^r/none.dat: ' "$work/err"
    merger --reports_file=none --output_file=out.dat
    ended 1 "covcollect-bazel: a list that isn't there"
    says "$work/err" 'covcollect-bazel: which is named' "covcollect-bazel: none can't be read"
    merger --coverage_dir=in --output_file=out.dat --source_file_manifest=none
    ended 1 "covcollect-bazel: a manifest that isn't there"
    call "$recipes/bazel/covcollect-bazel" --coverage_dir=in --output_file=out.dat
    ended 2 "covcollect-bazel: gcov-json.awk isn't there"
    says "$work/err" 'covcollect-bazel: and it says so' "covcollect-bazel: gcov-json.awk isn't there"
    COVCOLLECT=/none merger --coverage_dir=in --output_file=out.dat
    ended 2 "covcollect-bazel: the program isn't there"
    merger --output_file=out.dat
    ended 2 'covcollect-bazel: nothing to merge is named'
    merger --coverage_dir=in
    ended 2 'covcollect-bazel: no output is named'
    merger --coverage_dir=in --output_file
    ended 2 'covcollect-bazel: an option without a value'
    mkdir cut
    head -c 300 in/deep/tiny.gcov.json.gz >cut/tiny.gcov.json.gz
    merger --coverage_dir=cut --output_file=out.dat
    ended 4 'covcollect-bazel: JSON that was cut off'
    says "$work/err" 'covcollect-bazel: which is named' "covcollect-bazel: cut/tiny.gcov.json.gz can't be unpacked"
    printf '{"files": [' | gzip >cut/tiny.gcov.json.gz
    merger --coverage_dir=cut --output_file=out.dat
    ended 4 'covcollect-bazel: JSON that was cut off before it was packed'
    says "$work/err" 'covcollect-bazel: which is named too' "covcollect-bazel: cut/tiny.gcov.json.gz can't be converted"
    printf 'SF:x\nDA:1,\n' >cut/a.dat
    rm cut/*.gz
    merger --coverage_dir=cut --output_file=out.dat
    ended 4 'covcollect-bazel: a tracefile that is refused'
    says "$work/err" 'covcollect-bazel: and is named' 'cut/a.dat: refused BadLine at 2'
    same before.dat out.dat 'covcollect-bazel: after all these the output is as it was'
    holds 'covcollect-bazel: and nothing half written is left' [ ! -e out.dat.new ]

    mkdir none profile
    merger --coverage_dir=none --output_file=out.dat
    ended 0 'covcollect-bazel: no coverage'
    holds 'covcollect-bazel: is an empty file' [ -e out.dat -a ! -s out.dat ]
    printf 'a profile\0' >profile/a.profdata
    merger --coverage_dir=profile --output_file=out.dat
    same profile/a.profdata out.dat 'covcollect-bazel: a profile alone is copied'
    cp r/1.dat profile
    merger --coverage_dir=profile --output_file=out.dat
    ended 0 'covcollect-bazel: a profile beside other coverage'
    says "$work/err" 'covcollect-bazel: is told' "covcollect-bazel: left out, since LLVM's profiles can't be merged here: profile/a.profdata "
    says out.dat 'covcollect-bazel: and the other coverage stays' SF:/x.c DA:1,1 DA:3,1
}

@test 'the script against the Java program' {
    needs_java
    folder
    alike() { # WHAT WORDS...
        local what=$1
        shift
        call "$top/java-merger" "$@" --output_file=theirs.dat
        ended 0 "covcollect-bazel: $what, by the Java program"
        merger "$@" --output_file=ours.dat
        ended 0 "covcollect-bazel: $what"
        # half.cpp has a template: the Java program leaves the branches of each instance as they come.
        lines_of theirs.dat | grep -v 'SF:half.cpp BR' >theirs
        lines_of ours.dat | grep -v 'SF:half.cpp BR' >ours
        same theirs ours "covcollect-bazel: $what: the lines are those of the Java program"
        holds "covcollect-bazel: $what: which are some" [ "$(wc -l <ours)" -gt 20 ]
    }
    alike 'all kinds of coverage' --coverage_dir=in
    alike 'a manifest' --coverage_dir=in --source_file_manifest=manifest
    alike 'filters' --coverage_dir=in --filter_sources='lib/.*' --filter_sources='.*/x\.pb\.h' --filter_sources=half
    # Without a filter, the Java program leaves two sources of one name as two sections. Bazel always gives filters.
    alike 'other names' --coverage_dir=in --sources_to_replace_file=replaced --filter_sources=/usr/lib/.+
    # The same reports as a list, with the time of both.
    mkdir r
    mawk 'BEGIN {
        for (test = 1; test <= 60; test++) {
            out = "r/" test ".dat"
            for (file = 1; file <= 30; file++) {
                printf "SF:src/%d.cc\n", (test * 7 + file) % 90 >out
                for (line = 1; line <= 300; line++) printf "DA:%d,%d\n", 3 * line, (line * test) % 17 >out
                print "end_of_record" >out
            }
            close(out)
            print out >"list"
        }
    }'
    alike 'a list of reports' --reports_file=list
    TIMEFORMAT='%U + %S s'
    theirs=$({ time "$top/java-merger" --reports_file=list --output_file=theirs.dat >"$work/log" 2>&1; } 2>&1)
    ours=$({ time beside/covcollect-bazel --reports_file=list --output_file=ours.dat; } 2>&1)
    show <<<"time   bazel: a list of 60 reports, 5 MB, processor time: Java $theirs, covcollect $ours"
}

@test 'on a worker with nothing but busybox' {
    folder
    mkdir -p worker/bin worker/rule.runfiles/some/where tmp
    for tool in awk cat find gunzip mktemp mv rm sed sh tr wc; do
        ln -s "$(command -v busybox)" "worker/bin/$tool"
    done
    cp "$recipes/bazel/covcollect-bazel" worker/rule
    cp "$recipes/gcov-json.awk" worker/rule.runfiles/some/where
    cp "$COVCOLLECT" worker/rule.runfiles/some/where/covcollect
    call env -i PATH="$PWD/worker/bin" TEST_TMPDIR="$PWD/tmp" "$(command -v busybox)" sh worker/rule --coverage_dir=in \
        --output_file=worker.dat --source_file_manifest=manifest --filter_sources='.*external/.+'
    ended 0 "covcollect-bazel: by busybox alone, with program and awk in the runfiles"
    merger --coverage_dir=in --output_file=usual.dat --source_file_manifest=manifest
    same usual.dat worker.dat 'covcollect-bazel: the result is the same'
    holds 'covcollect-bazel: nothing is left in the folder for temporary files' [ -z "$(ls tmp)" ]
    echo in/a.dat >list
    call env -i /bin/sh worker/rule --reports_file=list --output_file=out.dat
    ended 0 'covcollect-bazel: with an empty environment, as at the end'
    says out.dat 'covcollect-bazel: which merges' SF:tiny.c DA:2,1
}
