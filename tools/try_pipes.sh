#!/usr/bin/env bash
# Tries the proved program where its output goes nowhere: a reader that closes its pipe, a full device, a closed
# standard output. Each run ends in status 7 with one line: none hangs, and none is ended by a signal.
#
# usage: tools/try_pipes.sh [PROGRAM]      (crates/cc_player/out/cc_player, which the gate and `rt run` build)
set -u
cd "$(dirname "$0")/.."
program=${1:-crates/cc_player/out/cc_player}
if [ ! -x "$program" ]; then
    echo "try_pipes: $program is not there: the gate builds it, and so does \`rt run\` in crates/cc_player" >&2
    exit 1
fi
faults=0
count=0
room=$(mktemp -d)
trap 'rm -rf "$room"' EXIT

# WHAT STATUS: fails where the run ended otherwise, or said something else than its one line
check() {
    count=$((count + 1))
    if [ "$2" != 7 ] || [ "$(cat "$room/notes")" != 'cc: write fault' ]; then
        echo "try_pipes: $1: status $2, $(head -c 200 "$room/notes")" >&2
        faults=$((faults + 1))
    fi
}

# A picture of 3 MiB, more than a pipe holds.
sed 's/"viewport": *\[[^]]*\]/"viewport":[1024,1024]/' examples/first.json > "$room/large.json"
for words in 'step 1' 'step 4' 'play 2'; do
    # shellcheck disable=SC2086
    timeout 120 "$program" $words < "$room/large.json" 2> "$room/notes" | head -c 10 > /dev/null
    check "$words, a reader that closes its pipe" "${PIPESTATUS[0]}"
    for script in examples/first.json "$room/large.json"; do
        # shellcheck disable=SC2086
        timeout 120 "$program" $words < "$script" 2> "$room/notes" > /dev/full
        check "$words of ${script##*/}, a full device" $?
        # shellcheck disable=SC2086
        timeout 120 "$program" $words < "$script" 2> "$room/notes" >&-
        check "$words of ${script##*/}, a closed standard output" $?
    done
done
echo "try_pipes: $count runs, $faults wrong"
[ "$faults" -eq 0 ]
