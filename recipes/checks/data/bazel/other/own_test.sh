#!/bin/sh
# Leaves a tracefile of another language, with a source of its own and one of somebody else.
printf '%s\n' TN: SF:other/own.py DA:1,3 DA:2,0 end_of_record SF:external/their/own.py DA:1,3 end_of_record >"$COVERAGE_DIR/own.dat"
