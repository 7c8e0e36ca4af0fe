#!/bin/sh
# Builds the program, unless an argument names one, and tries it where reads and writes come in parts or fail.
# Holds standard output and standard error to what is expected: a line for each case, and exit 1 if one differs.
set -eu
root=$(cd "$(dirname "$0")/.." && pwd)
schedule=$root/crates/cage_report/stdin
report=$root/crates/cage_report/stdout
members=$root/crates/run_500_members
room=$(mktemp -d)
trap 'rm -rf "$room"' EXIT
if [ $# -gt 0 ]; then
    program=$(cd "$(dirname "$1")" && pwd)/$(basename "$1")
else
    program=$root/crates/cage_report/out/cage_report
    if ! (cd "$root/crates/cage_report" && rt run <"$schedule") >"$room/built" 2>&1; then
        cat "$room/built" >&2
        exit 1
    fi
fi
cd "$room"
: >nothing
echo 'koxaltes: input could not be read' >unread
echo 'koxaltes: output could not be written' >unwritten
echo 'refused 1 member 0' >too_long
head -c 4096 "$members/stdout" >part
differ=0

# try OUTPUT ERROR CASE COMMAND: what the command must leave on standard output and on standard error.
try() {
    eval "$4" >out 2>err || echo "exit status $?" >>err
    if cmp -s "$1" out && cmp -s "$2" err; then
        echo "as expected: $3"
    else
        echo "DIFFERS: $3"
        sed -n '1,5s/^/  standard output: /p' out
        sed -n '1,5s/^/  standard error: /p' err
        differ=1
    fi
}

# The schedule, a byte at a time.
slowly() {
    place=0
    while [ "$place" -lt "$(wc -c <"$schedule")" ]; do
        dd if="$schedule" bs=1 skip="$place" count=1 2>/dev/null
        sleep 0.02
        place=$((place + 1))
    done
}

# 4,096 bytes (8 blocks of 512) may be written to a file, and a write past them fails.
limited() {
    sh -c 'trap "" XFSZ && ulimit -f 8 && exec "$0"' "$program"
}

try "$report" nothing 'a file' '"$program" <"$schedule"'
try "$report" nothing 'a pipe' 'cat "$schedule" | "$program"'
try "$report" nothing 'a pipe, a byte at a time' 'slowly | "$program"'
try "$members/stdout" nothing '500 members by a pipe' 'cat "$members/stdin" | "$program"'
try too_long nothing '100 MB by a pipe, in 5 seconds' 'head -c 100000000 /dev/zero 2>/dev/null | timeout 5 "$program"'
try too_long nothing 'an input without end, in 5 seconds' 'timeout 5 "$program" </dev/zero'
try nothing unread 'a closed input' '"$program" <&-'
try nothing unread 'a directory as input' '"$program" </'
try nothing unwritten 'a full device as output' '"$program" <"$schedule" >/dev/full'
try nothing unwritten 'a closed output' '"$program" <"$schedule" >&-'
try part unwritten 'an output that takes a part' 'limited <"$members/stdin"'
try nothing unread 'input and output closed' '"$program" <&- >&-'
exit "$differ"
