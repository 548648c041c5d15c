#!/usr/bin/env bash
# Holds buscount to the plain C program on random traces in pieces of odd sizes, and to what document 01 says at the
# limit of 1,000,000 requests (22 at line 1,000,001; by P6 at a clear too) and on a line of 1 GB; then to the sentences on
# standard error after a read error and after a write error. Needs rt, gcc and python3.
set -eu
cd "$(dirname "$0")/.."
out=target/bench
mkdir -p "$out"
tools/build.sh buscount > /dev/null
gcc -O3 -o "$out/c" bench/buscount.c
python3 bench/compare.py target/bin/buscount "$out/c" "${TRACES:-1000}"

python3 bench/make_trace.py > "$out/trace"
for last in "0 0" "4 ffffff"; do
    limit=$(echo "$last" | cat "$out/trace" - | target/bin/buscount | tail -n 1)
    [ "$limit" = "ended 22 1000001" ] || { echo "the limit, at $last: $limit"; exit 1; }
    echo "1,000,001 lines, the last $last: $limit"
done

long=$(head -c 1000000000 /dev/zero | tr '\0' '0' | target/bin/buscount | tail -n 1)
[ "$long" = "ended 6 1" ] || { echo "a long line: $long"; exit 1; }
echo "a line of 1 GB: $long"

target/bin/buscount < . > "$out/printed" 2> "$out/said"
said=$(cat "$out/said")
[ ! -s "$out/printed" ] && [ "$said" = "buscount: standard input could not be read." ] || { echo "a read error printed:"; cat "$out/printed" "$out/said"; exit 1; }
echo "a read error: $said"

said=$(target/bin/buscount < crates/buscount/stdin 2>&1 > /dev/full)
[ "$said" = "buscount: the report could not be written." ] || { echo "a write error: $said"; exit 1; }
echo "a write error: $said"
