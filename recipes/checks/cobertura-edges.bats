#!/usr/bin/env bats
# cobertura.awk at its edges: branches that no test took, and a file right below /.
#
# need gawk gawk
# need mawk mawk
# need busybox busybox
# need libxml2-utils xmllint

load common

# The XML by one awk, in the file xml. More than one call, since a crash may come once in several.
cobertura() { # AWK FILE
    for _ in 1 2 3; do
        # shellcheck disable=SC2086 # busybox awk is two words
        call $1 -f "$recipes/cobertura.awk" "$2"
        [ "$status" -eq 0 ] || break
    done
    cp "$work/out" xml
}
of_xml() { xmllint --xpath "string($1)" xml; } # EXPRESSION

@test "branches that no test took" {
    local awk
    printf '%s\n' SF:/a BRDA:2,0,1,- DA:2,0 end_of_record >one.info
    # Line 2 has two blocks, of which one is taken, line 3 has one that isn't. By hand: 1 of 3 and 0 of 1 branches.
    printf '%s\n' SF:/s/b.c BRDA:2,0,0,0 BRDA:2,0,1,- BRDA:2,1,0,4 BRDA:3,0,0,- DA:2,4 DA:3,0 end_of_record >two.info
    for awk in gawk mawk 'busybox awk'; do
        cobertura "$awk" one.info
        ended 0 "cobertura.awk: a branch that no test took, by $awk"
        holds "cobertura.awk: which is 0 of 1, by $awk" [ "$(of_xml '//line/@condition-coverage'):$(of_xml '//condition/@coverage')" = '0% (0/1):0%' ]
        cobertura "$awk" two.info
        ended 0 "cobertura.awk: a block that is taken and others that aren't, by $awk"
        holds "cobertura.awk: the line's condition is 33%, by $awk" [ "$(of_xml '//line[@number=2]/@condition-coverage')" = '33% (1/3)' ]
        holds "cobertura.awk: and those of its blocks 0% and 100%, by $awk" \
            [ "$(of_xml '//line[@number=2]//condition[1]/@coverage') $(of_xml '//line[@number=2]//condition[2]/@coverage')" = '0% 100%' ]
        holds "cobertura.awk: that of the other line is 0%, by $awk" [ "$(of_xml '//line[@number=3]/@condition-coverage')" = '0% (0/1)' ]
    done
}

@test "a file right below the root" {
    local awk
    # By hand: 1 of 2 lines and 1 of 2 branches below /, 1 of 1 line in /x.
    printf '%s\n' SF:/a BRDA:1,0,0,1 BRDA:1,0,1,- DA:1,1 DA:2,0 end_of_record SF:/x/b DA:1,1 end_of_record >root.info
    for awk in gawk mawk 'busybox awk'; do
        cobertura "$awk" root.info
        ended 0 "cobertura.awk: a file right below /, by $awk"
        holds "cobertura.awk: its lines count once in the totals, by $awk" \
            [ "$(of_xml /coverage/@lines-covered) of $(of_xml /coverage/@lines-valid)" = '2 of 3' ]
        holds "cobertura.awk: and its branches, by $awk" \
            [ "$(of_xml /coverage/@branches-covered) of $(of_xml /coverage/@branches-valid)" = '1 of 2' ]
        holds "cobertura.awk: its folder's rate is that of the file, by $awk" [ "$(of_xml '//package[1]/@line-rate')" = 0.500000 ]
        holds "cobertura.awk: and the other's that of the other file, by $awk" [ "$(of_xml '//package[2]/@line-rate')" = 1 ]
    done
}
