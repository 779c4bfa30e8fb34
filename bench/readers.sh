#!/usr/bin/env bash
# What readers cost the threads that submit.
#
#     bench/readers.sh [PROGRAM]
#
# PROGRAM is crates/covbench/out/covbench, which `make` builds. Four threads submit a small tracefile to one shared book, beside
# 0, 1, 8 and 32 threads that ask for the totals without a pause. Each submits 50,000 times. Of five runs the one with the
# most submits a second is shown. The rows go to bench/results/readers.tsv too. Nothing else should run meanwhile; it takes
# half a minute.
set -euo pipefail
cd "$(dirname "$0")/.."
program=${1:-crates/covbench/out/covbench}
if [ ! -x "$program" ]; then
  echo "readers: $program isn't there; run 'make' first" >&2
  exit 1
fi
submitters=4
submits=50000
mkdir -p bench/results
rows=$(mktemp)
trap 'rm -f "$rows"' EXIT
{
  echo "# $(date -u +%Y-%m-%d), $(nproc) cores, $(sed -n 's/^model name[^:]*: //p' /proc/cpuinfo | head -n 1)"
  echo "# $(rt version 2>/dev/null || echo 'no rt'), commit $(git rev-parse --short HEAD 2>/dev/null || echo unknown)"
  echo "# bench/readers.sh: $submitters threads that submit $submits times each"
  printf 'readers\tsubmits a second\tslowest submit, microseconds\treadings a second\n'
} >"$rows"
for readers in 0 1 8 32; do
  best=''
  for _turn in 1 2 3 4 5; do
    line=$("$program" pace "$submitters" "$readers" "$submits")
    numbers=$(sed -n 's/^\([0-9]*\) submits a second, the slowest \([0-9]*\) microseconds, \([0-9]*\) readings a second$/\1\t\2\t\3/p' <<<"$line")
    if [ -z "$numbers" ]; then
      echo "readers: $program printed: $line" >&2
      exit 1
    fi
    if [ -z "$best" ] || [ "${numbers%%	*}" -gt "${best%%	*}" ]; then
      best=$numbers
    fi
  done
  printf '%s\t%s\n' "$readers" "$best" >>"$rows"
  echo "$readers readers: $best" >&2
done
mv "$rows" bench/results/readers.tsv
trap - EXIT
chmod 644 bench/results/readers.tsv
cat bench/results/readers.tsv
