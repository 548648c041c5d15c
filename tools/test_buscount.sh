#!/usr/bin/env bash
# Tries tools/buscount.sh: each exit status, what it says, and that the report is buscount's own, byte by byte.
# Needs target/bin/buscount ('tools/build.sh buscount' makes it) and python3. Prints 'N passed'; a case that fails is named.
set -u
unset BUSCOUNT
cd "$(dirname "$0")/.."
work=$(mktemp -d)
trap 'rm -r "$work"' EXIT
run=$PWD/tools/buscount.sh
whole=crates/buscount/stdin
passed=0
failed=0

# A case: its name, the status, the file of what standard output must be, a pattern of standard error, and the command.
try() {
    local name=$1 status=$2 output=$3 said=$4
    shift 4
    "$@" > "$work/output" 2> "$work/said"
    local got=$?
    if [ $got = "$status" ] && cmp -s "$output" "$work/output" && [[ $(cat "$work/said") == $said ]]; then
        passed=$((passed + 1))
        return
    fi
    failed=$((failed + 1))
    echo "$name: status $got, expected $status; printed and said:"
    cat "$work/output" "$work/said"
}

# A trace that is refused: its name, what is said of it, and the trace.
try_refused() {
    local name=$1 said=$2 trace=$work/trace
    cat > "$trace"
    target/bin/buscount < "$trace" > "$work/expected"
    try "$name, as a file" 1 "$work/expected" "$said" "$run" "$trace"
    try "$name, on standard input" 1 "$work/expected" "$said" "$run" < "$trace"
}

first='0 0\n0 1000000\n1 0\n1 4\n'
try_refused 'malformed' 'line 5: malformed line (6)' < <(printf "${first}x 0\n1 0\n")
for label in 3 7; do
    try_refused "label $label" 'line 5: label above 2 other than 4 (7)' < <(printf "$first$label 0\n1 0\n")
done
try_refused 'a processor' 'line 5: no such processor (3)' < <(printf "${first}0 4000000\n")
try_refused 'a variable' 'line 5: no such variable (4)' < <(printf "${first}0 400")
try_refused 'too many requests' 'line 1000001: the 1,000,001st request (22)' < <(yes '0 0' | head -n 1000001)

try 'a whole trace, as a file' 0 crates/buscount/stdout '' "$run" "$whole"
try 'a whole trace, on standard input' 0 crates/buscount/stdout '' "$run" < "$whole"
printf 'requests 2\nfetch 4\nwrite-back 4\nupdate 0\ntotal 8\nended 0 0\n' > "$work/cleared"
try 'a clear' 0 "$work/cleared" '' "$run" < <(printf '1 0\n4 ffffff\n')
try 'a program named by the environment' 0 crates/buscount/stdout '' env BUSCOUNT="$PWD/target/bin/buscount" "$run" "$whole"
cp "$whole" "$work/a trace"
from_elsewhere() { (cd "$work" && "$run" 'a trace'); }
try 'from another folder' 0 crates/buscount/stdout '' from_elsewhere
ln -s "$run" "$work/link"
try 'by a link' 0 crates/buscount/stdout '' "$work/link" "$whole"
target/bin/buscount < /dev/null > "$work/empty"
try 'an empty trace' 0 "$work/empty" '' "$run" /dev/null
yes '0 0' | head -n 1000000 > "$work/long"
target/bin/buscount < "$work/long" > "$work/expected"
try '1,000,000 lines' 0 "$work/expected" '' "$run" < "$work/long"
little_memory() { (ulimit -v 65536 && head -c 200000000 /dev/zero | "$run"); }
target/bin/buscount <<< x > "$work/expected"
try 'a line of 200 MB in 64 MB of memory' 1 "$work/expected" 'line 1: malformed line (6)' little_memory

unread='buscount: standard input could not be read.'$'\n''buscount.sh: there is no report'
try 'no such file' 2 /dev/null 'buscount.sh: * cannot be opened' "$run" "$work/none"
try 'a directory as a file' 2 /dev/null "$unread" "$run" .
try 'a directory on standard input' 2 /dev/null "$unread" "$run" < .
try 'closed standard input' 2 /dev/null "$unread" "$run" <&-

unwritten='buscount.sh: the report could not be written'
full() { "$run" "$1" > /dev/full; }
closed() { "$run" "$1" >&-; }
unread_pipe() {
    { until [ -e "$work/closed" ]; do sleep 0.1; done; "$run" "$1"; echo $? > "$work/status"; } | (exec <&-; : > "$work/closed")
    return "$(cat "$work/status")"
}
try 'a full device' 2 /dev/null "$unwritten" full "$whole"
try 'a refused trace and a full device' 2 /dev/null "$unwritten" full crates/buscount_refused/stdin
try 'closed standard output' 2 /dev/null "$unwritten" closed "$whole"
try 'a pipe that nobody reads' 2 /dev/null "$unwritten" unread_pipe "$whole"

try 'no such program' 2 /dev/null 'buscount.sh: there is no program *' env BUSCOUNT="$work/none" "$run" "$whole"
try 'a program that prints nothing' 2 /dev/null 'buscount.sh: there is no report' env BUSCOUNT=true "$run" "$whole"
try 'a program that fails' 2 /dev/null 'buscount.sh: * ended with status 1' env BUSCOUNT=false "$run" "$whole"

# The signal goes to the script alone; buscount must be ended too, so that nothing takes the line that comes after it.
interrupt() {
    rm -f "$work/taken"
    { sleep 2; echo '0 0' 2> /dev/null && echo > "$work/taken"; } | timeout --foreground --preserve-status -s "$1" 1 "$run"
    local status=${PIPESTATUS[1]}
    [ ! -e "$work/taken" ] || return 1
    return $status
}
for signal in INT TERM HUP; do
    try "interrupted by $signal" 2 /dev/null 'buscount.sh: interrupted; there is no report' interrupt $signal
done

"$run" --help > "$work/help"
try 'help' 0 "$work/help" '' "$run" --help
try 'an unknown option' 2 /dev/null 'buscount.sh: unknown option *' "$run" -x
try 'two traces' 2 /dev/null 'buscount.sh: one trace at a time*' "$run" "$whole" "$whole"

# A terminal, which here is both standard input and what is printed to: the line, its end, then Ctrl-D.
at_terminal() {
    printf '0 0\n\004' | python3 -c 'import os, pty, sys; sys.exit(os.waitstatus_to_exitcode(pty.spawn(sys.argv[1:])))' "$run" > "$work/terminal"
    local status=$?
    grep -q 'waits for a trace' "$work/terminal" && grep -q 'ended 0 0' "$work/terminal" || return 1
    return $status
}
try 'a terminal' 0 /dev/null '' at_terminal

echo "$passed passed"
[ $failed = 0 ]
