#!/bin/sh
# Leaves a tracefile with a count that isn't a number.
printf '%s\n' SF:other/own.py DA:1,xyz end_of_record >"$COVERAGE_DIR/own.dat"
