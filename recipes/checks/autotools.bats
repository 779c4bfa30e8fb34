#!/usr/bin/env bats
# lcov, the stand-in, in the rules that AX_CODE_COVERAGE of autoconf-archive makes.
#
# need gcc gcc
# need g++ g++
# need make make
# need autoconf autoreconf
# need automake automake
# need autoconf-archive test -e /usr/share/aclocal/ax_code_coverage.m4
# need lcov geninfo

load common
load builds

# Not below /tmp, since the rules remove all sources there.
setup_file() {
    place=$(mktemp -d /var/tmp/covcollect-autotools.XXXXXX)
    export place
    cd "$place" || return
    many_sources .
    cat >configure.ac <<'END'
AC_INIT([tried], [1.0])
AM_INIT_AUTOMAKE([foreign subdir-objects])
AC_PROG_CC
AC_PROG_CXX
AC_PROG_RANLIB
AM_PROG_AR
AX_CODE_COVERAGE
AC_CONFIG_FILES([Makefile])
AC_OUTPUT
END
    {
        echo 'include $(top_srcdir)/aminclude_static.am'
        echo 'AM_CPPFLAGS = $(CODE_COVERAGE_CPPFLAGS)'
        echo 'AM_CFLAGS = $(CODE_COVERAGE_CFLAGS)'
        echo 'AM_CXXFLAGS = $(CODE_COVERAGE_CXXFLAGS)'
        echo 'noinst_LIBRARIES = libunits.a'
        echo "libunits_a_SOURCES = $(printf 'src/unit_%d.c ' $(seq 63))src/unit_64.cc"
        echo "check_PROGRAMS = $(printf 'test_%d ' $(seq 40))"
        echo 'TESTS = $(check_PROGRAMS)'
        echo 'LDADD = libunits.a $(CODE_COVERAGE_LIBS)'
        for number in $(seq 40); do
            # A second source of no language but C++ makes the linker that of C++.
            printf 'test_%d_SOURCES = tests/test_%d.c\nnodist_EXTRA_test_%d_SOURCES = none.cc\n' "$number" "$number" "$number"
        done
        echo 'clean-local: code-coverage-clean'
        echo 'distclean-local: code-coverage-dist-clean'
    } >Makefile.am
    { autoreconf -i && ./configure --enable-code-coverage CFLAGS= CXXFLAGS= && make -j 2 check; } >log 2>&1 3>&- 4>&- </dev/null ||
        { tail -n 20 log >&2; return 1; }
}
teardown_file() { rm -rf "$place"; }

@test 'code-coverage-capture' {
    both autotools "$place/tried-1.0-coverage.info" 1 make -C "$place" V=1 code-coverage-capture
    holds 'autotools: the call that removes has --directory' grep -q -- '--directory .* --remove ' "$work/calls.standin"
    holds 'autotools: genhtml made pages' [ -f "$place/tried-1.0-coverage/index.html" ]
    says "$work/standin.info" "autotools: the test's name is that of the package" TN:tried_1_0
}

@test 'code-coverage-capture, with branches and a pattern' {
    both 'autotools with branches' "$place/tried-1.0-coverage.info" 1 make -C "$place" V=1 code-coverage-capture \
        CODE_COVERAGE_BRANCH_COVERAGE=1 CODE_COVERAGE_IGNORE_PATTERN='"*/tests/*"'
    holds 'autotools with branches: there are some' grep -q '^BRDA:' "$work/standin.info"
    holds "autotools with branches: the tests' own sources are removed" [ "$(grep -c '/tests/' "$work/standin.info")" -eq 0 ]
}
