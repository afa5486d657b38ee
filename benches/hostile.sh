#!/bin/bash
# Measures how long "h5 html" takes for texts that an attacker would write, and how much memory: milliseconds of
# processor time, the best of three runs, for texts of 16 KB to 1 MB. The patterns of the texts are in hostile.txt.
#
#     benches/hostile.sh [PATTERN..]     texts of these patterns; by default of all
#
# The columns after the times of a pattern are
#
#     last      the last time divided by the one before
#     memory    the peak memory in bytes per byte of the largest text that was tried, without the memory for an empty
#               text; needs GNU time
#     output    the bytes written per byte of that text
#     *         the last is over 2.3 or unknown, or the memory is over 60
#
# A text is not tried if the one before took more than half a second, and its time is a dash: it could take some
# seconds, and how fast the times grow is known by then.
#
# With PROGRAM='WORD..' this command is run in place of "h5 html", with the text as standard input.
#
# The shell is bash, since its `time` reports milliseconds.
root=$(cd "$(dirname "$0")/.." && pwd) || exit 1
sizes="15625 31250 62500 125000 250000 500000 1000000"
TIMEFORMAT='%3U %3S'

room=$(mktemp -d) || exit 1
trap 'rm -rf "$room"' EXIT
trap 'exit 130' INT TERM HUP

names=$("$root/benches/hostile.py") || exit 1
[ $# -gt 0 ] || set -- $names
for pattern; do
    if ! printf '%s\n' "$names" | grep -q -x -F -e "$pattern"; then
        echo "benches/hostile.sh: hostile.txt has no pattern $pattern" >&2
        exit 2
    fi
done
if [ -n "$PROGRAM" ]; then
    program=$PROGRAM
else
    program="$root/crates/h5/out/h5 html"
    if ! (cd "$root/crates/h5" && rt run -- html </dev/null) >"$room/log" 2>&1; then
        cat "$room/log" >&2
        exit 1
    fi
fi

# Runs the program over a text, for at most 30 seconds and with at most 4 GB. Further arguments are a command that runs it.
run() {
    (
        ulimit -t 30 -v 4000000
        text=$1
        shift
        exec "$@" $program <"$room/$text" >"$room/out" 2>"$room/said"
    )
}

# Prints the milliseconds for a text, or nothing if the program fails.
best() {
    for _ in 1 2 3; do
        { time run "$1"; } 2>&1 || return
    done | awk 'NR == 1 || $1 + $2 < least { least = $1 + $2 } END { if (NR == 3) printf "%.0f", least * 1000 }'
}

# Prints the peak memory of the program, in kilobytes.
memory() {
    run "$1" /usr/bin/time -o "$room/most" -f %M
    tail -n 1 "$room/most"
}

: >"$room/empty"
empty=$(memory empty)
printf '%-28s' ""
printf ' %8s' $sizes last memory output
printf '\n'
for pattern; do
    "$root/benches/hostile.py" "$pattern" "$room" $sizes || exit 1
    printf '%-28s' "$pattern"
    before= now=0 largest=
    for size in $sizes; do
        if [ -z "$now" ] || [ "$now" -gt 500 ]; then
            printf ' %8s' -
            continue
        fi
        before=$now
        now=$(best "$size")
        printf ' %8s' "${now:-fails}"
        largest=$size
    done
    held=$(memory "$largest")
    echo "${now:-0} $before $held $empty $(wc -c <"$room/$largest") $(wc -c <"$room/out")" | awk '{
        last = $2 > 0 ? sprintf("%.2f", $1 / $2) : "-"
        memory = ($3 - $4) * 1024 / $5
        mark = last == "-" || last + 0 > 2.3 || memory > 60 ? " *" : ""
        printf " %8s %8.1f %8.1f%s\n", last, memory, $6 / $5, mark
    }'
done
