# Converts a tracefile of LCOV 2 or coverage.py to the format of LCOV 1.x: for tools that read no other, for a covcollect without
# --lcov2, and to leave out branches. 'covcollect merge --lcov2' reads tracefiles of both versions by itself.
#
#     LC_ALL=C awk -f lcov2.awk new.info > plain.info
#     LC_ALL=C awk -v branches=plain -f lcov2.awk new.info > plain.info
#
# Without it and without --lcov2, covcollect skips functions in FNL and FNA lines, takes those of FN lines with an end line as never
# called, and refuses branches with a mark or an expression. Tracefiles of LCOV 1.x and of llvm-cov 14 don't need it; they are copied,
# without carriage returns at line ends.
#
# It differs from --lcov2 in what geninfo doesn't write: it looks for an FNL line below too, of two with one index it takes the last, it
# keeps a name that begins with digits and a comma if FNDA has it, and it refuses a block with both numbers and expressions.
#
# branches=all (the default) keeps all branches, branches=plain drops those of exceptions, branches=none drops all. With LC_ALL=C
# every awk treats names as bytes. Works with mawk, gawk and busybox awk. mawk is the fastest of them.
#
# Exit status: 0 done; 1 a line can't be converted; 2 wrong call. For status 1, standard error names the line and the output ends
# inside a section, so covcollect refuses it (OpenEnd).

BEGIN {
    if (branches == "")
        branches = "all"
    if (branches !~ /^(all|plain|none)$/)
        stop(2, "lcov2.awk: branches must be all, plain or none, not '" branches "'")
    # A whole section is read at once, because FN and FNA lines depend on other lines, which may come later. It is also what makes
    # this fast: most lines are copied in large pieces and never looked at alone. RS leaves the colon to the next record, so a file
    # that was cut off after SF: still ends in this line.
    RS = "\nSF"
}

FNR == 1 { if (NR > 1) put_last(); above = 0; file = FILENAME; held = $0; next }
/^:/ { put_held(); held = "SF" $0; next }
# A line that begins SF but opens no section.
{ held = held "\nSF" $0 }

END { if (!stopped && NR > 0) put_last(); exit stopped }

function put_last() {
    sub(/\n$/, "", held)
    put_held()
}

# Prints the section that is held and the lines after it.
function put_held(   end) {
    if (index(held, "\r")) {
        gsub(/\r+\n/, "\n", held)
        sub(/\r+$/, "", held)
    }
    end = index(held, "\nend_of_record")
    if (held !~ /^SF:/)
        put_lines(without_comments("\n" held))
    else if (end) {
        put_section(substr(held, 1, end - 1))
        put_lines(without_comments(substr(held, end)))
    } else
        # A section that is cut off, or in which another one opens. covcollect refuses it.
        put_section(held)
    above += 1 + gsub(/\n/, "\n", held)
}

# Version 1 doesn't have comments, source versions and conditions (MC/DC).
function without_comments(text) {
    if (text ~ /\n[#VM]/)
        gsub(/\n(#|VER:|MCDC:|MCF:|MCH:|MRF:|MRH:)[^\n]*/, "", text)
    return text
}

# From here on a line has its line feed before it, not after it.
function put_lines(text) {
    if (text != "")
        print substr(text, 2)
}

function put_section(text,   count, i, end, line, after) {
    text = without_comments("\n" text)
    # Whether branches have expressions instead of numbers, and whether all are printed as they are.
    expressions = text ~ /\nBRDA:[0-9]+,[ef]?U?[0-9]+,([0-9]*[^0-9,\n]|,|[0-9]+,[-0-9]*[^-0-9\n])/
    as_they_are = branches == "all" && !expressions && text !~ /\nBRDA:[0-9]+,[efU]/
    # The lines about functions without their FN, and other lines after them.
    count = split(text, line, "\nFN")
    for (i = 2; i <= count; i++) {
        if (end = index(line[i], "\n")) {
            after[i] = substr(line[i], end)
            line[i] = substr(line[i], 1, end - 1)
        }
        note(line[i])
    }
    # In version 1 every function of an FN line has a count under the same name. Otherwise the section is of version 2.
    version2 = 0
    for (i = 2; i <= count && !version2; i++)
        version2 = line[i] ~ /^:/ && !(after_comma(line[i]) in named)
    put_others(line[1])
    for (i = 2; i <= count; i++) {
        put_function(line[i])
        if (i in after)
            put_others(after[i])
    }
    grouped = left_out = 0
    split("", named); split("", start); split("", order); split("", numeric)
}

# Notes what the conversion of other lines depends on.
function note(line,   field) {
    # Functions with a count.
    if (line ~ /^DA:[^,]*,./)
        named[after_comma(line)] = 1
    # FNL:<index>,<start>[,<end>] has the start line of all functions with this index.
    else if (line ~ /^L:[0-9]+,[0-9]+(,[0-9]+)?$/) {
        split(substr(line, 3), field, ",")
        start[field[1]] = field[2]
        grouped = 1
    }
}

function put_function(line) {
    if (line ~ /^A:/)
        put_alias(line)
    else if (line ~ /^:/)
        put_start(line)
    else if (line ~ /^L:/) {
        if (line !~ /^L:[0-9]+,[0-9]+(,[0-9]+)?$/)
            refuse("FN" line, "isn't FNL:<index>,<start>[,<end>]")
    # With FNL and FNA these totals count start lines, in version 1 they count names. covcollect doesn't need them.
    } else if (!(grouped && line ~ /^[FH]:/))
        print "FN" line
}

# FN:<start>,<end>,<name> loses its end line, which is optional. A name may itself begin with digits and a comma, so the name is what
# has a count. If both have one, it is the shorter.
function put_start(line,   name, rest) {
    if (version2 && line ~ /^:[0-9]+,[0-9]+,./) {
        rest = after_comma(line)
        name = after_comma(rest)
        if ((name in named) || !(rest in named))
            line = substr(line, 1, index(line, ",")) name
    }
    print "FN" line
}

# FNA:<index>,<count>,<name> becomes FN and FNDA. Each name is a function of its own, as geninfo 1.x writes it.
function put_alias(line,   comma, place, rest) {
    if (line !~ /^A:[0-9]+,[0-9]+,./)
        refuse("FN" line, "isn't FNA:<index>,<count>,<name>")
    comma = index(line, ",")
    place = substr(line, 3, comma - 3)
    if (!(place in start))
        refuse("FN" line, "has no FNL line in its section")
    rest = substr(line, comma + 1)
    print "FN:" start[place] "," after_comma(rest) "\nFNDA:" rest
}

# Lines that aren't about functions.
function put_others(text,   count, i, end, line, as_it_is) {
    if (as_they_are) {
        put_lines(text)
        return
    }
    # Most branches have no mark.
    as_it_is = expressions || branches == "none" ? "^$" : "^DA:[0-9]+,[0-9]"
    count = split(text, line, "\nBR")
    put_lines(line[1])
    for (i = 2; i <= count; i++)
        if (line[i] ~ as_it_is)
            print "BR" line[i]
        else if (end = index(line[i], "\n")) {
            put_branch("BR" substr(line[i], 1, end - 1))
            put_lines(substr(line[i], end))
        } else
            put_branch("BR" line[i])
}

# BRDA:<line>,[<marks>]<block>,<branch>,<taken>. The marks are e (exception) or f (fall through), and U (excluded from coverage, in no
# total). Version 1 writes the branches of exceptions without marks, and excluded ones not at all. A line that doesn't have this form
# is copied, and covcollect refuses it.
function put_branch(line,   marks) {
    if (line !~ /^BRDA:[0-9]+,[ef]?U?[0-9]+,.+,(-|[0-9]+)$/) {
        # The totals are wrong if branches were dropped.
        if (!(line ~ /^BR[FH]:/ && (left_out || branches == "none")))
            print line
        return
    }
    if (expressions)
        line = numbered(line)
    marks = substr(line, index(line, ",") + 1, 2)
    if (marks ~ /U/ || branches == "none")
        return
    if (marks ~ /e/ && branches == "plain") {
        left_out = 1
        return
    }
    sub(/,[ef]/, ",", line)
    print line
}

# The same branch with a number. If it has an expression, the branches of its block are numbered from 0 in their order, as in LCOV 2. So
# counts are added up correctly if the tool always writes the branches of a line in the same order.
function numbered(line,   count, field, block) {
    count = split(line, field, ",")
    block = field[2]
    sub(/^[efU]+/, "", block)
    block = field[1] "," block
    # An expression can have commas.
    if (count == 4 && field[3] ~ /^[0-9]+$/) {
        numeric[block] = 1
        if (!(block in order))
            return line
    } else if (!(block in numeric))
        return field[1] "," field[2] "," (order[block]++ + 0) "," field[count]
    refuse(line, "is in a block that has both numbers and expressions")
}

function after_comma(text) {
    return substr(text, index(text, ",") + 1)
}

# Of equal lines in a section, the first is the one that can't be converted.
function refuse(line, why,   before) {
    before = substr("\n" held "\n", 1, index("\n" held "\n", "\n" line "\n"))
    stop(1, file ": at " (above + gsub(/\n/, "\n", before)) ": " line " " why)
}

function stop(status, why) {
    print why > "/dev/stderr"
    stopped = status
    exit status
}
