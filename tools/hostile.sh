#!/bin/sh
# Runs the built program with hostile scripts, broken devices and too little memory, and reports how it ends.
#
#     tools/hostile.sh [PART..]
#
# The parts are prefixes, limits, edges, words, drawn, devices, calls, rooms and peaks; without a PART it runs all. PROGRAM and
# OTHER name the programs, as for tools/hostile-runs. DRAWN is the number of random scripts (4000), and SEED their seed (1). Each
# part ends with a line that counts its runs. The exit code is 1 if a run was odd.
[ "$1" != --help ] || exec sed -n '2,/^[^#]/s/^# \{0,1\}//p' "$0"
here=$(cd "$(dirname "$0")/.." && pwd) || exit 70
PROGRAM=${PROGRAM:-$here/crates/strokes/out/strokes}
export PROGRAM
[ -x "$PROGRAM" ] || { echo "hostile: $PROGRAM isn't there: rt ci builds it, or name that of ./prove: PROGRAM=out/strokes" >&2; exit 70; }
runs=$here/tools/hostile-runs
tmp=$(mktemp -d) || exit 70
trap 'rm -rf "$tmp"' EXIT
odd=0
many=0

# see NAME CODE TEXT: whether the last run ended with that code, told that text, and wrote nothing but what was wanted.
# CODE and TEXT may be patterns. The run left its code, err and out in $tmp; $tmp/want is what it was to write, if anything.
see() {
    many=$((many + 1))
    code=$(cat "$tmp/code") text=$(cat "$tmp/err" 2>/dev/null) why=
    case $code in $2) ;; *) why="code $code in place of $2" ;; esac
    case $text in $3) ;; *) why="$why told: $text" ;; esac
    if [ -f "$tmp/want" ] && ! cmp -s "$tmp/want" "$tmp/out"; then why="$why other bytes"; fi
    rm -f "$tmp/want" "$tmp/out" "$tmp/err" "$tmp/code"
    if [ -n "$why" ]; then
        odd=$((odd + 1))
        echo "ODD devices: $1: $why"
    fi
}

# Runs the program, and keeps its code.
ran() {
    timeout 60 "$PROGRAM" "$@"
    echo $? >"$tmp/code"
}

# Copies standard input in small pieces, with a pause after each.
slowly() {
    python3 -c '
import os, sys, time
size, pause = int(sys.argv[1]), float(sys.argv[2])
while piece := os.read(0, size):
    os.write(1, piece)
    time.sleep(pause)' "$@"
}

devices() {
    script=$tmp/script bad=$tmp/bad large=$tmp/large
    printf 'canvas 1 1\nexport\n' >"$script"
    printf 'canvas 1 1\nexprot\n' >"$bad"
    printf 'canvas 700 700\nexport\nexport\n' >"$large"
    ran <"$large" >"$tmp/picture"
    writing='strokes: writing failed' reading='strokes: reading failed' line='strokes: line 2: unknown word'
    for workers in 0 4; do
        with="--workers $workers"
        # shellcheck disable=SC2086
        {
            { ran $with <"$large" 2>"$tmp/err"; } | head -c 10 >/dev/null
            see "a pipe that is closed after 10 bytes" 5 "$writing"
            (trap '' PIPE; { ran $with <"$large" 2>"$tmp/err"; } | head -c 10 >/dev/null)
            see "the same where the signal is ignored" 5 "$writing"
            { ran $with <"$large" 2>"$tmp/err"; } | true
            see "a pipe that nobody reads" 5 "$writing"
            ran $with <"$script" >/dev/full 2>"$tmp/err"
            see "a full disk" 5 "$writing"
            ran $with <"$script" >/dev/full 2>/dev/full
            see "two full disks" 5 ""
            ran $with <"$bad" >"$tmp/out" 2>/dev/full; : >"$tmp/want"
            see "a full disk for what is told" 3 ""
            ran $with <"$bad" >"$tmp/out" 2>&-; : >"$tmp/want"
            see "nothing to tell it to" 3 ""
            ran $with <"$script" 2>&- | cat >"$tmp/out"; printf 'P6\n1 1\n255\n\377\377\377' >"$tmp/want"
            see "nothing to tell it to, and nothing to tell" 0 ""
            ran $with <"$script" 2>"$tmp/err" >&-
            see "no standard output" 5 "$writing"
            ran $with <"$script" 2>"$tmp/err" 1</dev/null
            see "a standard output that is only read from" 5 "$writing"
            ran $with <&- 2>"$tmp/err" >"$tmp/out"; : >"$tmp/want"
            see "no standard input" 4 "$reading"
            ran $with 0>/dev/null 2>"$tmp/err" >"$tmp/out"; : >"$tmp/want"
            see "a standard input that is only written to" 4 "$reading"
            ran $with </ 2>"$tmp/err" >"$tmp/out"; : >"$tmp/want"
            see "a directory" 4 "$reading"
            ran $with <&- >&- 2>&-
            see "no stream at all" 4 ""
            ran $with --demo 1 --emit sum <&- 2>"$tmp/err" | head -n 1 >"$tmp/out"
            echo 'entries 66 done 60 cancelled 6 refused 0' >"$tmp/want"
            see "no standard input, which a generated script doesn't need" "[05]" "*"
            ran $with </dev/null 2>"$tmp/err" >"$tmp/out"; : >"$tmp/want"
            see "nothing" 3 "strokes: line 1: canvas missing"
            for endless in /dev/zero /dev/urandom; do
                ran $with <$endless 2>"$tmp/err" >"$tmp/out"; : >"$tmp/want"
                see "$endless" 7 "strokes: script is longer than 1048576 bytes"
            done
            yes '#' | ran $with 2>"$tmp/err" >"$tmp/out"; : >"$tmp/want"
            see "a pipe that never ends" 7 "strokes: script is longer than 1048576 bytes"
            python3 -c '
import os, sys
ends = os.pipe()
os.set_inheritable(ends[1], True)
os.set_blocking(ends[0], False)
os.dup2(ends[0], 0)
os.execvp(sys.argv[1], sys.argv[1:])' "$PROGRAM" $with 2>"$tmp/err" >"$tmp/out"
            echo $? >"$tmp/code"; : >"$tmp/want"
            see "a pipe that has nothing yet and doesn't wait" 4 "$reading"
            { ran $with <"$large" 2>"$tmp/err"; } | slowly 65536 0.02 >"$tmp/out"; cp "$tmp/picture" "$tmp/want"
            see "a slow reader" 0 ""
            slowly 7 0.01 <"$large" | ran $with 2>"$tmp/err" >"$tmp/out"; cp "$tmp/picture" "$tmp/want"
            see "a slow writer" 0 ""
            (ulimit -f 8; ran $with <"$large" 2>"$tmp/err" >"$tmp/out"; true)
            see "a file that may not grow so large" "*[53]" "*"
        }
    done
    echo "devices: $many runs; $odd odd"
}

# What the program asks of the system, but for memory, threads and the streams.
calls() {
    command -v strace >/dev/null || { echo "calls: strace isn't installed, so this part is skipped"; return; }
    printf 'canvas 300 300\nlayer 1 0 0\nstroke 1 1\nfill 1 seq 0 0 300 300 ff000080 over 255\nend 1\nexport\n' >"$tmp/script"
    for workers in 0 4; do
        strace -f -o "$tmp/calls" "$PROGRAM" --workers $workers <"$tmp/script" >/dev/null
        printf 'calls with %s workers:' $workers
        sed 's/^[0-9]* *//; s/(.*//' "$tmp/calls" | grep -v '^[+<-]' | sort | uniq -c | awk '{ printf " %s %s,", $2, $1 }'
        echo
        grep -E 'open|socket|connect|exec|unlink|rename|mkdir|kill' "$tmp/calls" | sed 's/^[0-9]* */    /'
    done
}

[ $# -gt 0 ] || set -- prefixes limits edges words drawn devices calls rooms peaks
status=0
for part; do
    case $part in
    devices) devices; [ "$odd" = 0 ] || status=1 ;;
    calls) calls ;;
    drawn) "$runs" drawn "${DRAWN:-4000}" "${SEED:-1}" || status=1 ;;
    *) "$runs" "$part" || status=1 ;;
    esac
done
exit $status
