#!/bin/sh
# Compares the output of the hosts of this folder with that of the command, byte by byte, and the exit codes.
#
#     examples/embed/compare.sh [SCRIPTS [SEED]]
#
# The scripts are those of examples/ and SCRIPTS random ones (100), with the seeds from SEED (1) on. Each host paints each of them
# with 1, 4 and 8 threads. For the examples and each tenth random script it also compares the picture of the document, as the
# command's `--emit live` writes it, and what was fed, which the command reads back. PROGRAM is the command (default: ./strokes).
# Differences are printed, and their scripts kept below /tmp; then the exit code is 1.
[ "$1" != --help ] || exec sed -n '2,/^[^#]/s/^# \{0,1\}//p' "$0"
here=$(cd "$(dirname "$0")/../.." && pwd) || exit 70
program=${PROGRAM:-$here/strokes}
out=$here/out/embed
scripts=${1:-100} seed=${2:-1}
[ -x "$out/paint" ] || "$here/examples/embed/build.sh" || exit 70
tmp=$(mktemp -d) || exit 70
trap 'rm -rf "$tmp"' EXIT
trap 'exit 130' INT TERM HUP
runs=0 odd=0

# is_same WORD..: whether a host, called by these words for the script, writes $tmp/want and ends with the code $want.
is_same() {
    runs=$((runs + 1))
    timeout 120 "$@" <"$script" >"$tmp/got" 2>"$tmp/told"
    got=$?
    [ "$got" -eq "$want" ] && cmp -s "$tmp/got" "$tmp/want" && return
    odd=$((odd + 1))
    kept=$(mktemp "${TMPDIR:-/tmp}/compare-XXXXXX") && cp "$script" "$kept"
    echo "ODD $*: code $got, expected $want; $(wc -c <"$tmp/got") bytes, expected $(wc -c <"$tmp/want"); script: $kept"
    head -c 200 "$tmp/told"
}

# The names of the hosts that are there.
hosts() {
    for name in paint paint_cpp paint_rs; do
        [ ! -x "$out/$name" ] || echo "$name"
    done
    echo paint.py
}

# paints_alike HOST WORD..: whether the host of that name, called by these words, does as is_same tells.
paints_alike() {
    name=$1
    shift
    case $name in
    paint.py) is_same env STROKES_LIB_DIR="$out" python3 "$here/examples/embed/paint.py" "$@" ;;
    *) is_same "$out/$name" "$@" ;;
    esac
}

# What the command writes for the script by these words.
want() {
    "$program" "$@" <"$script" >"$tmp/want" 2>/dev/null
    want=$?
}

# compare SCRIPT MORE: compares the pictures, and where MORE is 1 the rest.
compare() {
    script=$1
    want
    for host in $(hosts); do
        for threads in 1 4 8; do
            paints_alike "$host" "$threads"
        done
    done
    paints_alike paint 4 whole
    [ "$2" -eq 1 ] || return 0
    "$out/paint" 4 script <"$script" >"$tmp/script"
    "$program" <"$tmp/script" >"$tmp/again" 2>/dev/null
    cmp -s "$tmp/again" "$tmp/want" || {
        odd=$((odd + 1))
        echo "ODD what paint was fed, for $script: the command paints another picture from it"
    }
    cp "$tmp/script" "$tmp/want"
    paints_alike paint.py 4 script
    want --emit live
    for host in $(hosts); do
        paints_alike "$host" 4 live
    done
}

for it in "$here"/examples/*.strokes; do
    compare "$it" 1
done
number=0
while [ "$number" -lt "$scripts" ]; do
    "$here/tools/traces" script $((seed + number)) >"$tmp/random" || exit 70
    compare "$tmp/random" $((number % 10 == 0))
    number=$((number + 1))
done
echo "compare: $runs runs of hosts, $odd odd"
[ "$odd" -eq 0 ]
