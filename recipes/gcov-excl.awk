# Takes the counts out of gcov's text that geninfo would leave out, because the source says so in comments:
#
#     gcov -b -c main.gcda util.gcda
#     LC_ALL=C awk -f gcov-excl.awk main.c.gcov util.c.gcov > unit.gcov
#     covcollect gcov --test unit -o unit.info unit.gcov
#
# LCOV_EXCL_LINE                    takes out its line: the count, the branches, and a function that starts there
# LCOV_EXCL_START, _STOP            the same for the lines from the first marker to the line before the second
# LCOV_EXCL_BR_LINE, _BR_START, _BR_STOP       take out the branches alone
# LCOV_EXCL_EXCEPTION_BR_LINE, _EXCEPTION_BR_START, _EXCEPTION_BR_STOP      take out the branches that exceptions take. That is what
#                                   geninfo's manual says; Debian's geninfo 1.16 leaves out all branches of such a line
#
# What is left has the counts that geninfo 1.16 writes. A line that is taken out becomes one without code (-), so the numbers of the
# others stay. The text can be of many sources, as with gcov -t. gcov must find the sources, since the markers stand there. Several
# instances of a template stay, and covcollect refuses them (Instances). Works with mawk, gawk and busybox awk.
#
# Exit status: 0 done, also if the last START has no STOP, which is reported on standard error; another: a file can't be read.

function begin_source(path) {
    if (excluded || no_branches || no_exceptions)
        print "gcov-excl.awk: " source ": an LCOV_EXCL START has no STOP" > "/dev/stderr"
    source = path
    excluded = no_branches = no_exceptions = 0
    line_out = branches_out = exceptions_out = 0
}

# The functions above a source line start there.
function end_functions(   i) {
    for (i = 1; i <= functions; i++)
        if (!line_out)
            print held[i]
    functions = 0
}

# A function, a branch and a source line, in the order in which covcollect tries them.
/^-----/ { print; next }
/^function .* called [0-9]+( |$)/ { held[++functions] = $0; next }
/^branch +[0-9]+ (never executed|taken )/ {
    if (!line_out && !branches_out && !(exceptions_out && /\(throw\)/))
        print
    next
}
/^ *[^ :]+: *[0-9]+-block +[0-9]+/ { print; next }
/^ *[^ :]+: *0+:/ {
    if (match($0, /^ *[^ :]+: *0+:Source:/)) {
        end_functions()
        begin_source(substr($0, RLENGTH + 1))
    }
    print
    next
}
/^ *[^ :]+: *[0-9]+:/ {
    if (/LCOV_EXCL_STOP/)
        excluded = 0
    else if (/LCOV_EXCL_START/)
        excluded = 1
    if (/LCOV_EXCL_BR_STOP/)
        no_branches = 0
    else if (/LCOV_EXCL_BR_START/)
        no_branches = 1
    if (/LCOV_EXCL_EXCEPTION_BR_STOP/)
        no_exceptions = 0
    else if (/LCOV_EXCL_EXCEPTION_BR_START/)
        no_exceptions = 1
    line_out = excluded || /LCOV_EXCL_LINE/
    branches_out = no_branches || /LCOV_EXCL_BR_LINE/
    exceptions_out = no_exceptions || /LCOV_EXCL_EXCEPTION_BR_LINE/
    end_functions()
    if (line_out)
        sub(/[^ :]+/, "-")
    print
    next
}
{ print }

END {
    end_functions()
    begin_source("")
}
