#!/usr/bin/env bats
# Pages of `covcollect html` in a browser, by an HTML checker, and beside genhtml.
#
# need chromium chromium
# need tidy tidy
# need lcov genhtml

load common
load projects

# What a headless browser says of a page: its document, after it was loaded. The console goes to the file `console`.
browser() { # OPTION... URL
    chromium --headless --no-sandbox --disable-gpu --user-data-dir="$PWD/profile" --enable-logging=stderr --virtual-time-budget=2000 "$@" 2>console
}
# Two source files, one in a directory, of one function each and with tags in their lines.
pages() {
    mkdir -p src
    printf 'int f(int a) {\n\treturn a < 1 && a > -1;\n}\n' >src/a.c
    printf '<script>document.title = "no"</script>\n' >b.c
    printf 'TN:\nSF:src/a.c\nFN:1,f\nFNDA:2,f\nBRDA:2,0,0,1\nBRDA:2,0,1,0\nDA:1,2\nDA:2,2\nDA:3,0\nend_of_record\nSF:b.c\nDA:1,100000\nend_of_record\n' >a.info
    call "$COVCOLLECT" html a.info -o html
    ended 0 'html: makes pages'
}

@test "pages in a browser" {
    local page width scheme
    pages
    for page in index file-src-a.c file-b.c; do
        call browser --dump-dom "file://$PWD/html/$page.html"
        ended 0 "html: a browser opens $page.html"
        cp "$work/out" "$page.dom"
        holds "html: and has nothing to say of $page.html" [ "$(grep -c 'CONSOLE' console)" -eq 0 ]
    done
    holds 'html: totals as in the summary' [ "$(grep -o '<b>[^<]*</b> [0-9]* of [0-9]*' index.dom | sed 's/<[^>]*>//g' | tr '\n' ,)" = '75.0% 3 of 4,100.0% 1 of 1,50.0% 1 of 2,' ]
    call "$COVCOLLECT" list a.info
    for page in src/a.c b.c; do
        holds "html: the row of $page as in the list" \
            [ "$(tr -d '\n' <index.dom | sed 's:</\{0,1\}tr>:\n:g' | grep ">${page##*/}</a>" | sed 's/<[^>]*>/ /g; s/  */ /g; s/^ *[^ ]* //; s/ $//')" = \
            "$(grep " $page\$" "$work/out" | sed 's/  */ /g; s/^ //; s/ [^ ]*$//')" ]
    done
    holds 'html: a script of a source is text' grep -q '&lt;script&gt;document.title' file-b.c.dom
    holds 'html: and the title is the path' grep -q '<title>b.c</title>' file-b.c.dom
    holds 'html: an anchor for each line, and a link to it' [ "$(grep -o 'id="L[0-9]*"\|href="#L[0-9]*"' file-src-a.c.dom | sort -u | tr -d '\n')" = 'href="#L1"href="#L2"href="#L3"id="L1"id="L2"id="L3"' ]
    for width in 1200 400; do
        for scheme in light dark; do
            [ $scheme = light ] || set -- --force-dark-mode --blink-settings=preferredColorScheme=0
            call browser "$@" --window-size=$width,900 --screenshot="$PWD/$scheme-$width.png" "file://$PWD/html/file-src-a.c.html#L3"
            holds "html: a picture, $width pixels wide, $scheme" [ -s "$scheme-$width.png" ]
            set --
        done
    done
    [ -z "${COVCOLLECT_PICTURES-}" ] || cp ./*.png "$COVCOLLECT_PICTURES/"
}

@test "pages by an HTML checker" {
    local page
    pages
    printf 'TN:\nSF:\x01"<b>&\xff\nDA:1,1\nend_of_record\nSF:b.c\nDA:5,0\nend_of_record\n' >strange.info
    call "$COVCOLLECT" html --title '<&"' --date '<&"' strange.info -o strange
    for page in html/*.html strange/*.html; do
        # A bar is an empty element by intent: the rate stands beside it.
        call tidy -quiet -errors --drop-empty-elements no "$page"
        ended 0 "html: tidy finds nothing in $page"
        holds "html: and says nothing of $page" [ ! -s "$work/err" ]
    done
}

@test "totals as genhtml's" {
    pages
    call genhtml --quiet --branch-coverage --rc lcov_branch_coverage=1 --rc branch_coverage=1 -o old a.info
    ended 0 'html: genhtml makes its pages of the same tracefile'
    for rate in '75.0' '100.0' '50.0'; do
        holds "html: both say $rate %" [ "$(grep -c "$rate" old/index.html | sed 's/[1-9].*/1/') $(grep -c "$rate%" html/index.html | sed 's/[1-9].*/1/')" = '1 1' ]
    done
}
