#!/usr/bin/env bash
# Runs buscount and turns its report into an exit status, which a program of the language cannot choose.
set -u

usage() {
    cat <<'T'
Usage: buscount.sh [TRACE]

Counts the bus cycles of a din trace, the file TRACE or standard input, and prints buscount's report as it is.

Exit status:
  0  the whole trace was taken
  1  a line was refused; standard error says which and why
  2  there is no report: the trace cannot be read, the report cannot be written, the run was interrupted, or the
     program is missing

The environment variable BUSCOUNT may name another program than target/bin/buscount.
T
}

say() { printf 'buscount.sh: %s\n' "$1" >&2; }

fail() {
    say "$1"
    exit 2
}

# The refusal $1 of line $2, in words.
refused() {
    case $1 in
        3) echo "line $2: no such processor (3)" ;;
        4) echo "line $2: no such variable (4)" ;;
        6) echo "line $2: malformed line (6)" ;;
        7) echo "line $2: label above 2 other than 4 (7)" ;;
        22) echo "line $2: the 1,000,001st request (22)" ;;
        *) echo "line $2: refused ($1)" ;;
    esac >&2
}

child=
interrupted() {
    [ -z "$child" ] || kill "$child" 2> /dev/null
    fail "interrupted; there is no report"
}

trap interrupted INT TERM HUP
# A reader that is gone makes a write fail, instead of ending this script before it can say so.
trap '' PIPE

case ${1-} in
    --help) usage && exit 0 || exit 2 ;;
    -*) fail "unknown option $1; try --help" ;;
esac
[ $# -le 1 ] || fail "one trace at a time; try --help"

named=${BUSCOUNT:-$(dirname "$(readlink -f "$0")")/../target/bin/buscount}
program=$(type -P "$named") || fail "there is no program $named; 'tools/build.sh buscount' makes it"
if [ $# = 1 ]; then
    { exec < "$1"; } 2> /dev/null || fail "$1 cannot be opened"
fi
[ ! -t 0 ] || say "waits for a trace on standard input; Ctrl-D ends it"

# In the background, so that an interrupt is seen at once.
exec 3< <(exec "$program")
child=$!
IFS= read -r -d '' report <&3
wait "$child" || fail "$program ended with status $?"
child=

printf '%s' "$report" 2> /dev/null || fail "the report could not be written"
[[ $report =~ (^|$'\n')ended\ ([0-9]+)\ ([0-9]+)$'\n'$ ]] || fail "there is no report"
[ "${BASH_REMATCH[2]}" != 0 ] || exit 0
refused "${BASH_REMATCH[2]}" "${BASH_REMATCH[3]}"
exit 1
