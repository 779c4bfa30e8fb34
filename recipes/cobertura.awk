# Writes a merged tracefile as Cobertura XML, which GitLab shows in merge requests and Jenkins reads (coverage-04.dtd).
#
#     covcollect merge -o all.info jobs/*.info
#     LC_ALL=C awk -v prefix="$PWD" -f cobertura.awk all.info > cobertura.xml
#
# prefix=FOLDER      the folder that paths are made relative to; GitLab wants them relative to the top of the repository. Files
#                    outside FOLDER keep their paths. awk wants each backslash in FOLDER twice (default: paths stay as they are)
# most=N             counts above N are written as N, for readers that take only, say, 2147483647 (default: exact counts)
# timestamp=N        the time of the report, which nothing here depends on (default: 0, so the same tracefile gives the same bytes)
#
# The totals are those of covcollect summary: a line or branch counts once for its file, and is hit if some test hit it. hits is the
# exact sum over all tests, however large. A package is a folder, a class a file, a method a function with the line that it starts at
# and the number of its calls. A condition is a block of branches. Branches of a line that has no count of its own are in the totals
# and rates, but belong to no line element. Rates are 0 where nothing is found, 1 only where all is hit. Where XML can't hold a byte
# of a name, a question mark stands for it. Works with mawk, gawk and busybox awk. The XML was compared with coverage-04.dtd; GitLab and
# Jenkins themselves weren't run.
#
# Exit status: 0 done; 1 the file isn't what covcollect merge, extract or remove printed, or it is empty: standard error says why, and
# nothing is printed; 2 wrong call.

BEGIN {
    folder = prefix
    sub(/\/+$/, "", folder)
    if ((most timestamp) !~ /^[0-9]*$/)
        stop(2, "cobertura.awk: most and timestamp must be numbers")
    # The key of the totals. No package has it: that of a file right below / is empty, and no path has a line feed.
    all = "\n"
    # busybox awk compares a variable that was never set as a text. gawk 5.2.1 (Debian 12) crashes if a function gets an element that was
    # never set, so each gets + 0 there.
    files = lines = news = functions = branches = branches_hit = 0
}

/^DA:[0-9]+,[0-9]+(,[^,]+)?$/ && open { put_line(); next }
/^BRDA:[0-9]+,[0-9]+,[0-9]+,(-|[0-9]+)$/ && open { put_branch(); next }
/^FNDA:[0-9]+,./ && open { put_calls(); next }
/^FN:[0-9]+,./ && open { put_function(); next }
/^(LF|LH|FNF|FNH|BRF|BRH):[0-9]+$/ && open { next }
/^TN:/ && !open { next }
/^SF:./ && !open { open_section(); next }
/^end_of_record$/ && open { close_section(); next }
{ stop(1, FILENAME ": at " FNR ": " $0 " isn't a line that covcollect prints here") }

END {
    if (stopped)
        exit stopped
    if (open)
        stop(1, FILENAME ": the last section has no end")
    if (files == 0)
        stop(1, FILENAME ": no section (did the merge fail?)")
    close_file()
    put_report()
}

# --- a section -------------------------------------------------------------------------------------------------------------------

# The sections of one file, each of another test, follow one another.
function open_section() {
    open = 1
    if (files > 0 && $0 == file_line)
        return
    if (files > 0)
        close_file()
    file_line = $0
    if (file_line in seen)
        stop(1, FILENAME ": at " FNR ": " $0 " comes again after another file: covcollect merge puts them together")
    seen[file_line] = ++files
}

function put_line(   field) {
    split(substr($0, 4), field, ",")
    if (field[1] in hits)
        hits[field[1]] = sum(hits[field[1]], field[2])
    else {
        hits[field[1]] = field[2]
        new[++news] = field[1]
    }
}

# The lines of all sections so far, in their order, and the new ones of this section become one list.
function close_section(   i, old, olds, n) {
    open = 0
    if (news > 0 && lines > 0 && before(new[1], list[lines])) {
        olds = lines
        for (i = 1; i <= olds; i++)
            old[i] = list[i]
        lines = 0
        i = n = 1
        while (i <= olds || n <= news)
            list[++lines] = n > news || (i <= olds && before(old[i], new[n])) ? old[i++] : new[n++]
    } else
        for (n = 1; n <= news; n++)
            list[++lines] = new[n]
    news = 0
}

# A line number can have 20 digits, which awk's numbers don't hold.
function before(a, b) {
    return length(a) == length(b) ? (a "") < (b "") : length(a) < length(b)
}

function put_function(   start) {
    start = substr($0, 4, index($0, ",") - 4)
    name = after_comma($0)
    if (!(name in starts))
        names[++functions] = name
    if (!(name in starts) || before(start, starts[name]))
        starts[name] = start
}

function put_calls(   count) {
    count = substr($0, 6, index($0, ",") - 6)
    name = after_comma($0)
    called[name] = name in called ? sum(called[name], count) : count
}

function put_branch(   field, line, block) {
    split(substr($0, 6), field, ",")
    line = field[1]
    block = line "," field[2]
    name = block "," field[3]
    if (!(name in taken)) {
        taken[name] = 0
        branches++
        branches_of[line]++
        if (!(block in branches_of))
            block_of[line "," ++blocks_of[line]] = block
        branches_of[block]++
    }
    if (!taken[name] && field[4] ~ /[1-9]/) {
        taken[name] = 1
        branches_hit++
        hit_of[line]++
        hit_of[block]++
    }
}

# The exact sum of two numbers of any length, 15 digits at a time.
function sum(a, b,   result, part, carry) {
    if (length(a) < 16 && length(b) < 16)
        return sprintf("%.0f", a + b)
    while (a != "" || b != "") {
        part = last_digits(a) + last_digits(b) + carry
        carry = part >= 1000000000000000
        result = sprintf("%015.0f", carry ? part - 1000000000000000 : part) result
        a = substr(a, 1, length(a) - 15)
        b = substr(b, 1, length(b) - 15)
    }
    result = carry result
    sub(/^0+/, "", result)
    return result
}

function last_digits(number) {
    return length(number) > 15 ? substr(number, length(number) - 14) : number
}

# --- a file ----------------------------------------------------------------------------------------------------------------------

# The elements of a file go to a list of texts, because the totals and the package stand before them.
function close_file(   path, package, hit, i, count) {
    hit = 0
    for (i = 1; i <= lines; i++)
        if (hits[list[i]] ~ /[1-9]/)
            hit++
    path = substr(file_line, 4)
    if (folder != "" && index(path, folder "/") == 1)
        path = substr(path, length(folder) + 2)
    package = path
    if (!sub(/\/[^\/]*$/, "", package))
        package = "."
    first[files] = texts + 1
    put("<class name=\"" escaped(path) "\" filename=\"" escaped(path) "\"" rates(hit, lines, branches_hit, branches) ">\n")
    put_methods()
    put_lines()
    put("</class>\n")
    end_text()
    last[files] = texts

    if (!(package in files_of))
        packages[++package_count] = package
    count = ++files_of[package]
    file_of[package, count] = files
    add_total(package, hit)
    add_total(all, hit)
    lines = functions = branches = branches_hit = 0
    split("", hits); split("", list); split("", starts); split("", called); split("", taken)
    split("", branches_of); split("", hit_of); split("", blocks_of); split("", block_of)
}

function add_total(package, hit) {
    total_lines[package] += lines
    total_lines_hit[package] += hit
    total_branches[package] += branches
    total_branches_hit[package] += branches_hit
}

function put_methods(   i, count) {
    if (functions == 0) {
        put("<methods/>\n")
        return
    }
    put("<methods>\n")
    for (i = 1; i <= functions; i++) {
        name = names[i]
        count = name in called ? called[name] : 0
        put("<method name=\"" escaped(name) "\" signature=\"\"" rates(count ~ /[1-9]/, 1, 0, 0) ">\n<lines>\n")
        put("<line number=\"" starts[name] "\" hits=\"" at_most(count) "\"/>\n</lines>\n</method>\n")
    }
    put("</methods>\n")
}

function put_lines(   i, number, n, block) {
    put("<lines>\n")
    for (i = 1; i <= lines; i++) {
        number = list[i]
        if (!(number in branches_of)) {
            put("<line number=\"" number "\" hits=\"" at_most(hits[number]) "\"/>\n")
            continue
        }
        put("<line number=\"" number "\" hits=\"" at_most(hits[number]) "\" branch=\"true\" condition-coverage=\"" \
            percent(hit_of[number] + 0, branches_of[number]) " (" hit_of[number] + 0 "/" branches_of[number] ")\">\n<conditions>\n")
        for (n = 1; n <= blocks_of[number]; n++) {
            block = block_of[number "," n]
            put("<condition number=\"" n - 1 "\" type=\"jump\" coverage=\"" percent(hit_of[block] + 0, branches_of[block]) "\"/>\n")
        }
        put("</conditions>\n</line>\n")
    }
    put("</lines>\n")
}

function put(text) {
    held = held text
    if (length(held) > 4000)
        end_text()
}

function end_text() {
    text[++texts] = held
    held = ""
}

# --- the report ------------------------------------------------------------------------------------------------------------------

function put_report(   i, n, k, file, package) {
    print "<?xml version=\"1.0\" encoding=\"UTF-8\"?>"
    print "<coverage" all_rates(all) " lines-covered=\"" total_lines_hit[all] "\" lines-valid=\"" total_lines[all] \
        "\" branches-covered=\"" total_branches_hit[all] "\" branches-valid=\"" total_branches[all] \
        "\" version=\"covcollect\" timestamp=\"" timestamp + 0 "\">"
    print "<sources>\n<source>" (folder == "" ? "." : escaped(folder)) "</source>\n</sources>\n<packages>"
    for (i = 1; i <= package_count; i++) {
        package = packages[i]
        print "<package name=\"" escaped(package) "\"" all_rates(package) ">\n<classes>"
        for (n = 1; n <= files_of[package]; n++) {
            file = file_of[package, n]
            for (k = first[file]; k <= last[file]; k++)
                printf "%s", text[k]
        }
        print "</classes>\n</package>"
    }
    print "</packages>\n</coverage>"
}

function all_rates(package) {
    return rates(total_lines_hit[package], total_lines[package], total_branches_hit[package], total_branches[package])
}

function rates(hit, found, branches_hit, branches) {
    return " line-rate=\"" rate(hit, found) "\" branch-rate=\"" rate(branches_hit, branches) "\" complexity=\"0\""
}

function rate(hit, found,   text) {
    if (hit == 0)
        return "0"
    if (hit == found)
        return "1"
    text = sprintf("%.6f", hit / found)
    return text == "0.000000" ? "0.000001" : text == "1.000000" ? "0.999999" : text
}

function percent(hit, found) {
    return int(100 * hit / found) "%"
}

function at_most(count) {
    return most != "" && before(most, count) ? most : count
}

# A name as an attribute's value: UTF-8, without bytes that XML 1.0 doesn't have.
function escaped(name,   rest) {
    if (name !~ /[^ -~]|[&<>"]/)
        return name
    gsub(/&/, "\\&amp;", name)
    gsub(/</, "\\&lt;", name)
    gsub(/>/, "\\&gt;", name)
    gsub(/"/, "\\&quot;", name)
    gsub(/\t/, "\\&#9;", name)
    gsub(/\r/, "\\&#13;", name)
    gsub(/[\001-\010\013\014\016-\037]/, "?", name)
    rest = name
    gsub(/[\302-\337][\200-\277]/, "", rest)
    gsub(/\340[\240-\277][\200-\277]|[\341-\354\356][\200-\277][\200-\277]|\355[\200-\237][\200-\277]/, "", rest)
    gsub(/\357[\200-\276][\200-\277]|\357\277[\200-\275]/, "", rest)
    gsub(/\360[\220-\277][\200-\277][\200-\277]|[\361-\363][\200-\277][\200-\277][\200-\277]|\364[\200-\217][\200-\277][\200-\277]/, "", rest)
    if (rest ~ /[\200-\377]/)
        gsub(/[\200-\377]/, "?", name)
    return name
}

function after_comma(text) {
    return substr(text, index(text, ",") + 1)
}

function stop(status, why) {
    print why > "/dev/stderr"
    stopped = status
    exit status
}
