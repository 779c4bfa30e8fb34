#!/usr/bin/env bats
# lcov, the stand-in, in the target that the usual CMake module (CodeCoverage.cmake, setup_target_for_coverage_lcov) makes: it captures the
# baseline and the counts, adds them, removes sources, and calls genhtml. The module isn't in Debian: the commands here are its own.
#
# need gcc gcc
# need g++ g++
# need cmake cmake
# need make make
# need lcov geninfo

load common
load builds

setup_file() {
    cd "$BATS_FILE_TMPDIR" || return
    many_sources project
    cat >project/CMakeLists.txt <<'END'
cmake_minimum_required(VERSION 3.13)
project(tried C CXX)
set(CMAKE_C_FLAGS "-O0 -g --coverage")
set(CMAKE_CXX_FLAGS "-O0 -g --coverage")
file(GLOB sources ${CMAKE_SOURCE_DIR}/src/*.c ${CMAKE_SOURCE_DIR}/src/*.cc)
add_library(units STATIC ${sources})
enable_testing()
foreach(number RANGE 1 40)
    add_executable(test_${number} tests/test_${number}.c)
    target_link_libraries(test_${number} units)
    set_target_properties(test_${number} PROPERTIES LINKER_LANGUAGE CXX)
    add_test(NAME test_${number} COMMAND test_${number})
endforeach()

set(lcov lcov ${ARGUMENTS} --gcov-tool gcov)
add_custom_target(coverage
    COMMAND ${lcov} -directory . -b ${PROJECT_SOURCE_DIR} --zerocounters
    COMMAND ${lcov} -c -i -d . -b ${PROJECT_SOURCE_DIR} -o coverage.base
    COMMAND ctest -j 2 --output-on-failure
    COMMAND ${lcov} --directory . -b ${PROJECT_SOURCE_DIR} --capture --output-file coverage.capture
    COMMAND ${lcov} -a coverage.base -a coverage.capture --output-file coverage.total
    COMMAND ${lcov} --remove coverage.total "/usr/*" "*/tests/*" --output-file coverage.info
    COMMAND genhtml -o coverage coverage.info
    BYPRODUCTS coverage.base coverage.capture coverage.total coverage.info
    WORKING_DIRECTORY ${PROJECT_BINARY_DIR}
    VERBATIM)
add_dependencies(coverage units)
END
}
coverage() { # WHAT ARGUMENTS
    local build=$BATS_FILE_TMPDIR/build.${1// /-}
    { cmake -S "$BATS_FILE_TMPDIR/project" -B "$build" -DARGUMENTS="$2" && make -C "$build" -j 2; } >"$work/log" 2>&1 3>&- 4>&- </dev/null ||
        { tail -n 20 "$work/log" >&2; return 1; }
    both "$1" "$build/coverage.info" 2 make -C "$build" coverage
    holds "$1: genhtml made pages" [ -f "$build/coverage/index.html" ]
    by_baseline "$1"
    holds "$1: the tests' own sources are removed" [ "$(grep -c '/tests/' "$work/standin.info")" -eq 0 ]
}

@test 'the target coverage' {
    coverage cmake ''
}

@test 'the target coverage, with branches' {
    coverage 'cmake with branches' '--rc;lcov_branch_coverage=1'
    holds 'cmake with branches: there are some' grep -q '^BRDA:' "$work/standin.info"
}
