#!/bin/sh
# Measures `intermit run` on a source of 1000 calls of putchar.
# It is no part of the gate. bench/exec.sh measures the steps of a long loop.
set -eu
top=$(CDPATH= cd -- "$(dirname -- "$0")/.." && pwd)
work=$(mktemp -d)
trap 'rm -rf "$work"' EXIT
{
  printf 'int main(void){'
  i=0
  while [ $i -lt 1000 ]; do printf 'putchar(2147483647);'; i=$((i + 1)); done
  printf 'return 2147483647;}'
} > "$work/longest.c"
"$top/intermit" run "$work/longest.c" "$work/longest.img" > "$work/out" 2> "$work/err"
[ "$(wc -c < "$work/out")" -eq 1000 ] || { echo "bench/run.sh: output of another length" >&2; exit 1; }
cat "$work/err"
echo "source $(wc -c < "$work/longest.c") bytes, image $(wc -c < "$work/longest.img") bytes"
runs=100
start=$(date +%s%N)
i=0
while [ $i -lt $runs ]; do
  "$top/intermit" run "$work/longest.c" "$work/longest.img" > /dev/null 2>&1
  i=$((i + 1))
done
end=$(date +%s%N)
echo "$(( (end - start) / runs / 1000 )) microseconds a run, the process's start and its files included"
