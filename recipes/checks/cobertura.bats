#!/usr/bin/env bats
# cobertura.awk, by three awks, on a file by hand, on broken ones, and on what geninfo wrote.
#
# need gcc gcc
# need g++ g++
# need make make
# need lcov geninfo
# need gawk gawk
# need mawk mawk
# need busybox busybox
# need libxml2-utils xmllint
# need ruby ruby

load common
load projects

# What the published coverage-04.dtd says, in other words.
cobertura_structure() {
    cat <<'END'
<!ENTITY % rates "line-rate CDATA #REQUIRED branch-rate CDATA #REQUIRED complexity CDATA #REQUIRED">
<!ELEMENT coverage (sources?, packages)>
<!ATTLIST coverage %rates; lines-covered CDATA #REQUIRED lines-valid CDATA #REQUIRED branches-covered CDATA #REQUIRED
    branches-valid CDATA #REQUIRED version CDATA #REQUIRED timestamp CDATA #REQUIRED>
<!ELEMENT sources (source*)>
<!ELEMENT source (#PCDATA)>
<!ELEMENT packages (package*)>
<!ELEMENT package (classes)>
<!ATTLIST package name CDATA #REQUIRED %rates;>
<!ELEMENT classes (class*)>
<!ELEMENT class (methods, lines)>
<!ATTLIST class name CDATA #REQUIRED filename CDATA #REQUIRED %rates;>
<!ELEMENT methods (method*)>
<!ELEMENT method (lines)>
<!ATTLIST method name CDATA #REQUIRED signature CDATA #REQUIRED %rates;>
<!ELEMENT lines (line*)>
<!ELEMENT line (conditions*)>
<!ATTLIST line number CDATA #REQUIRED hits CDATA #REQUIRED branch CDATA "false" condition-coverage CDATA "100%">
<!ELEMENT conditions (condition*)>
<!ELEMENT condition EMPTY>
<!ATTLIST condition number CDATA #REQUIRED type CDATA #REQUIRED coverage CDATA #REQUIRED>
END
}
# The XML by each awk: that of mawk is left in $work/xml.
cobertura() { # WHAT FILE OPTIONS...
    local what=$1 file=$2 awk
    shift 2
    for awk in mawk gawk 'busybox awk'; do
        status=0
        $awk "$@" -f "$recipes/cobertura.awk" "$file" >"$work/xml.${awk%% *}" 2>"$work/err" || status=$?
        [ $status -eq 0 ] || break
    done
    cp "$work/xml.mawk" "$work/xml"
    if [ $status -eq 0 ]; then
        cmp -s "$work/xml" "$work/xml.gawk" && cmp -s "$work/xml" "$work/xml.busybox" || status=1
    fi
    verdict $status "cobertura.awk: $what, the same by mawk, gawk and busybox awk"
    show "$work/err"
    holds "cobertura.awk: $what, of the structure of coverage-04.dtd" xmllint --noout --dtdvalid structure.dtd "$work/xml"
}
of_xml() { xmllint --xpath "$1" "$work/xml"; } # EXPRESSION
# Whether the XML's totals, and what its lines add up to, are those of the program's summary.
cobertura_totals() { # WHAT FILE
    local kind
    "$COVCOLLECT" summary "$2" |
        sed -nE 's/^  (lines|branches)\.+: .*\((.*) of ([0-9]*) .*/\1 \2 of \3/p; s/^  (lines|branches)\.+: no data found/\1 0 of 0/p' >summary
    for kind in lines branches; do
        echo "$kind $(of_xml "string(/coverage/@$kind-covered)") of $(of_xml "string(/coverage/@$kind-valid)")"
    done >totals
    same summary totals "cobertura.awk: $1, the totals are those of the summary"
    echo "lines $(of_xml 'count(//class/lines/line[@hits != "0"])') of $(of_xml 'count(//class/lines/line)')" >totals
    { grep -o 'condition-coverage="[0-9]*% ([0-9]*/[0-9]*)"' "$work/xml" || true; } | tr -d '()"' |
        awk '{ split($2, part, "/"); hit += part[1]; found += part[2] } END { print "branches " hit + 0 " of " found + 0 }' >>totals
    same summary totals "cobertura.awk: $1, the lines add up to them"
}

# The file hand.info.
hand() {
    # Two tests of /top/a/b.c. Line 1 is hit 2^53 + 1 + 2^53 + 2 times, line 2 2^128 - 1 and again as often, line 3 by the second test
    # alone, line 9 never. The branches of line 1: 0 of block 0 is taken by the second test, 1 of block 0 never; block 7 has one, never.
    # Of the three branches of line 10, which has no count of its own, one is taken. So 4 of 5 lines and 2 of 6 branches are hit.
    cat >hand.info <<'END'
TN:one
SF:/top/a/b.c
FN:1,f<int>(a, "b" & c)
FN:9,never
FNDA:9007199254740993,f<int>(a, "b" & c)
FNDA:0,never
FNF:2
FNH:1
BRDA:1,0,0,-
BRDA:1,0,1,0
BRDA:1,7,0,-
BRDA:10,0,0,1
BRDA:10,0,1,0
BRDA:10,0,2,-
BRF:6
BRH:1
DA:1,9007199254740993
DA:2,340282366920938463463374607431768211455
DA:9,0
DA:10000000000000000000,1
LF:4
LH:3
end_of_record
TN:two
SF:/top/a/b.c
FN:1,f<int>(a, "b" & c)
FNDA:2,f<int>(a, "b" & c)
FNF:1
FNH:1
BRDA:1,0,0,4
BRDA:1,0,1,-
BRDA:10,0,0,3
BRF:3
BRH:2
DA:1,9007199254740994
DA:2,340282366920938463463374607431768211455
DA:3,5
DA:9,0
LF:4
LH:3
end_of_record
TN:two
SF:/top/main.c
DA:1,0
LF:1
LH:0
end_of_record
END
    printf 'TN:two\nSF:/topmost/\303\244\3441&<".c\nDA:1,18446744073709551615,lZ8bZ6bGGr4EkvEwDDpwWQ\nLF:1\nLH:1\nend_of_record\n' >>hand.info
}

@test "a file by hand" {
    cobertura_structure >structure.dtd
    hand
    cat >wanted <<'END'
<?xml version="1.0" encoding="UTF-8"?>
<coverage line-rate="0.714286" branch-rate="0.333333" complexity="0" lines-covered="5" lines-valid="7" branches-covered="2" branches-valid="6" version="covcollect" timestamp="7">
<sources>
<source>/top</source>
</sources>
<packages>
<package name="a" line-rate="0.800000" branch-rate="0.333333" complexity="0">
<classes>
<class name="a/b.c" filename="a/b.c" line-rate="0.800000" branch-rate="0.333333" complexity="0">
<methods>
<method name="f&lt;int&gt;(a, &quot;b&quot; &amp; c)" signature="" line-rate="1" branch-rate="0" complexity="0">
<lines>
<line number="1" hits="9007199254740995"/>
</lines>
</method>
<method name="never" signature="" line-rate="0" branch-rate="0" complexity="0">
<lines>
<line number="9" hits="0"/>
</lines>
</method>
</methods>
<lines>
<line number="1" hits="18014398509481987" branch="true" condition-coverage="33% (1/3)">
<conditions>
<condition number="0" type="jump" coverage="50%"/>
<condition number="1" type="jump" coverage="0%"/>
</conditions>
</line>
<line number="2" hits="680564733841876926926749214863536422910"/>
<line number="3" hits="5"/>
<line number="9" hits="0"/>
<line number="10000000000000000000" hits="1"/>
</lines>
</class>
</classes>
</package>
<package name="." line-rate="0" branch-rate="0" complexity="0">
<classes>
<class name="main.c" filename="main.c" line-rate="0" branch-rate="0" complexity="0">
<methods/>
<lines>
<line number="1" hits="0"/>
</lines>
</class>
</classes>
</package>
<package name="/topmost" line-rate="1" branch-rate="0" complexity="0">
<classes>
<class name="/topmost/???1&amp;&lt;&quot;.c" filename="/topmost/???1&amp;&lt;&quot;.c" line-rate="1" branch-rate="0" complexity="0">
<methods/>
<lines>
<line number="1" hits="18446744073709551615"/>
</lines>
</class>
</classes>
</package>
</packages>
</coverage>
END
    "$COVCOLLECT" merge hand.info >hand.merged
    same hand.info hand.merged 'cobertura.awk: the file by hand is one that covcollect prints'
    cobertura 'a file by hand' hand.info -v prefix=/top/ -v timestamp=7
    same wanted "$work/xml" 'cobertura.awk: the file by hand, with sums above 2^53 and 2^128, and names that XML cannot hold'
    "$COVCOLLECT" summary hand.info >"$work/out"
    says "$work/out" 'cobertura.awk: the totals worked out by hand are those of the summary' '  lines......: 71.4% (5 of 7 lines)' \
        '  branches...: 33.3% (2 of 6 branches)'
    sed 's/<methods.>//' "$work/xml" >wrong.xml
    call xmllint --noout --dtdvalid structure.dtd wrong.xml
    holds 'cobertura.awk: the structure is really looked at' [ "$status" -ne 0 ]
    cobertura 'at most 1000' hand.info -v most=1000
    grep -o 'hits="[0-9]*"' "$work/xml" | tr -dc '0-9\n' >"$work/out"
    same <(printf '%s\n' 1000 0 1000 1000 5 0 1 0 1000) "$work/out" 'cobertura.awk: larger counts are written as 1000, and no others change'
    holds 'cobertura.awk: without a prefix paths stay as they are' \
        [ "$(of_xml 'string(//class[1]/@filename)') $(of_xml 'string(//source)')" = '/top/a/b.c .' ]
    printf 'TN:\nSF:/\303\244.c\nDA:1,1\nend_of_record\n' >name.info
    cobertura 'a name in UTF-8' name.info
    holds 'cobertura.awk: which stays as it is' [ "$(of_xml 'string(//class/@filename)')" = $'/\303\244.c' ]
    # The rate of 100000 lines of which all but one are hit would be 1.0000 with four digits.
    { echo TN:; echo SF:/a; seq 1 100000 | sed 's/.*/DA:&,1/; 7s/1$/0/'; echo end_of_record; } >most.info
    cobertura 'many lines' most.info
    holds 'cobertura.awk: a rate is 1 only where all is hit' [ "$(of_xml 'string(/coverage/@line-rate)')" = 0.999990 ]
}

@test "files that are broken" {
    hand
    local awk
    head -n 20 hand.info >cut.info
    : >empty.info
    printf 'TN:\nSF:/a\nDA:1,1\nend_of_record\nTN:\nSF:/b\nDA:1,1\nend_of_record\nTN:t\nSF:/a\nDA:1,1\nend_of_record\n' >apart.info
    printf 'TN:\nSF:/a\nFNL:0,1,3\nFNA:0,1,f\nDA:1,1\nend_of_record\n' >two.info
    printf 'TN:\nSF:/a\nDA:1,-1\nend_of_record\n' >odd.info
    fault() { # AWK FILE MESSAGE
        call $1 -f "$recipes/cobertura.awk" "$2"
        ended 1 "cobertura.awk: status 1 for $2, by $1"
        says "$work/err" 'cobertura.awk: and why' "$3"
        holds 'cobertura.awk: and nothing is printed' [ ! -s "$work/out" ]
    }
    for awk in mawk gawk 'busybox awk'; do
        fault "$awk" cut.info 'cut.info: the last section has no end'
        fault "$awk" empty.info 'empty.info: no section (did the merge fail?)'
        fault "$awk" apart.info 'apart.info: at 10: SF:/a comes again after another file: covcollect merge puts them together'
        fault "$awk" two.info "two.info: at 3: FNL:0,1,3 isn't a line that covcollect prints here"
        fault "$awk" odd.info "odd.info: at 3: DA:1,-1 isn't a line that covcollect prints here"
        call $awk -v most=many -f "$recipes/cobertura.awk" hand.info
        ended 2 "cobertura.awk: status 2 for a wrong option, by $awk"
    done
}

@test "what geninfo wrote, and the steps of GitLab and Jenkins" {
    cobertura_structure >structure.dtd
    local file
    mkdir c
    (cd c && programs && gcc --coverage -O0 -o tiny tiny.c && g++ --coverage -O0 -o half half.cpp && ./tiny)
    geninfo --quiet --rc lcov_branch_coverage=1 --test-name tiny --output-filename tiny.info c >"$work/log" 2>&1
    (cd c && ./tiny && ./half)
    geninfo --quiet --rc lcov_branch_coverage=1 --test-name both --checksum --output-filename both.info c >"$work/log" 2>&1
    "$COVCOLLECT" merge tiny.info both.info >all.info
    cobertura 'what geninfo wrote of two tests' all.info -v "prefix=$PWD"
    cobertura_totals 'what geninfo wrote of two tests' all.info
    # Line 2 of tiny.c is run 3 times by the first test, and the second has these and 3 more.
    holds 'cobertura.awk: what geninfo wrote of two tests, a line of tiny.c' \
        [ "$(of_xml 'string(//class[@filename = "c/tiny.c"]/lines/line[@number = "2"]/@hits)')" = 9 ]
    "$COVCOLLECT" remove all.info '*' >none.info
    call mawk -f "$recipes/cobertura.awk" none.info
    ended 1 'cobertura.awk: status 1 where all files are removed'

    # The steps of the jobs, in a project of which 4 of 6 lines are hit.
    project project
    for file in gitlab.yml Jenkinsfile; do
        call "steps_of_$file" "$recipes/$file"
        ended 0 "$file: the step that makes the report is there"
        cp "$work/out" step
        call bash -e -c 'cd project && bash -e ../step'
        ended 0 "$file: without results, the step does nothing"
        holds "$file: and leaves nothing" [ ! -e project/coverage ]
        call bash -c 'cd project && ci/ci.sh --no-html'
        ended 0 "$file: the results are there"
        call bash -e -c 'cd project && bash -e ../step'
        ended 0 "$file: the step makes the report"
        cp project/coverage/cobertura.xml "$work/xml"
        holds "$file: the report has that structure" xmllint --noout --dtdvalid structure.dtd "$work/xml"
        cobertura_totals "$file" project/coverage/own.info
        holds "$file: with paths from the project's top" \
            [ "$(of_xml 'count(//class[@filename = "src/twice.c" or @filename = "src/test.c"])')" = 2 ]
        rm -r project/coverage
    done
    # All of the pipeline's commands, with its variables. Jenkins runs the last ones also where ci.sh fails.
    sed -nE "s/^ *([A-Z_]+) = ([\"'].*[\"'])\$/export \1=\2/p; s/^ *sh '(.*)'\$/\1/p" "$recipes/Jenkinsfile" >steps
    holds 'Jenkinsfile: has variables and commands' [ "$(grep -c '^export COVERAGE_' steps) $(grep -vc ^export steps)" = '3 3' ]
    mkdir project/coverage
    cp all.info project/coverage/own.info
    call bash -c 'cd project && bash ../steps'
    ended 0 'Jenkinsfile: its commands run'
    says "$work/err" 'Jenkinsfile: ci.sh fails at 80% where 4 of 6 lines are hit' 'lines: 4 of 6 is below 80%'
    cp project/coverage/cobertura.xml "$work/xml"
    cobertura_totals 'the commands of Jenkinsfile' project/coverage/own.info
    call bash -c 'cd project && sed "s/^export COVERAGE_TEST=.*/export COVERAGE_TEST=false/" ../steps >../broken && bash ../broken'
    ended 0 'Jenkinsfile: its commands run where a test fails'
    holds 'Jenkinsfile: and leave no report, of the last build neither' [ ! -e project/coverage ]
}
# The commands of the job that has a report.
steps_of_gitlab.yml() {
    ruby -e 'require "yaml"
        job = YAML.load_file(ARGV[0]).values.find { |it| it.is_a?(Hash) && it.dig("artifacts", "reports") }
        wanted = { "coverage_report" => { "coverage_format" => "cobertura", "path" => "coverage/cobertura.xml" } }
        abort "another report" unless job["artifacts"]["reports"] == wanted
        puts job["after_script"]' "$1"
}
steps_of_Jenkinsfile() { sed -nE "s/^ *sh '(.*cobertura\.awk.*)'\$/\1/p" "$1" | grep .; }
