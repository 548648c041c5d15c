#!/usr/bin/env bash
# Times buscount beside the same job in plain C, Rust and Free Pascal, in one go, on a made trace of 1,000,000 lines.
# Prints the least and the mean of RUNS runs (default 60), the four in turn: user time, system time and their sum, and of
# user time and the sum the ratio to C's. The least user time alone is rough, since the kernel divides a run's time into
# the two by ticks; the sum is steadier. Needs rt, gcc, rustc, fpc and python3.
set -eu
cd "$(dirname "$0")/.."
runs=${RUNS:-60}
out=target/bench
mkdir -p "$out"
tools/build.sh buscount > /dev/null
gcc -O3 -o "$out/c" bench/buscount.c
rustc -O -o "$out/rust" bench/buscount.rs
fpc -O3 -o"$out/pascal" bench/buscount.pas > /dev/null
rm -f "$out"/*.o
python3 bench/make_trace.py > "$out/trace"
cp target/bin/buscount "$out/buscount"
for program in buscount c rust pascal; do "$out/$program" < "$out/trace" > "$out/$program.out"; done
for program in c rust pascal; do cmp "$out/buscount.out" "$out/$program.out"; done
python3 - "$out" "$runs" <<'P'
import resource, subprocess, sys
folder, runs = sys.argv[1], int(sys.argv[2])
names = ["buscount", "c", "rust", "pascal"]
taken = {name: [] for name in names}


def used():
    usage = resource.getrusage(resource.RUSAGE_CHILDREN)
    return usage.ru_utime, usage.ru_stime


for _ in range(runs):
    for name in names:
        before = used()
        with open(folder + "/trace") as trace:
            subprocess.run([folder + "/" + name], stdin=trace, stdout=subprocess.DEVNULL, check=True)
        user, system = (now - then for now, then in zip(used(), before))
        taken[name].append((user, system, user + system))
for what, of in ("least", min), ("mean", lambda times: sum(times) / runs):
    times = {name: [of(column) for column in zip(*taken[name])] for name in names}
    for name in names:
        user, system, both = times[name]
        ratios = "user %.2f x C, sum %.2f x C" % (user / times["c"][0], both / times["c"][2])
        print("%-5s %-9s user %.4f s, system %.4f s, sum %.4f s   %s" % (what, name, user, system, both, ratios))
P
