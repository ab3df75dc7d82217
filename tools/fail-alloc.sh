#!/bin/sh
# Lets each allocation of the built program fail, and reports how the runs end.
#
#     tools/fail-alloc.sh                   runs of worked scripts, without workers and with two, of their traces and replays
#     tools/fail-alloc.sh test CRATE::NAME [STEP]    a test of a crate instead, with each STEPth allocation (1) failing
#
# A small library over the C library's allocator lets each allocation fail alone, then each with all later ones, then every 2nd,
# 3rd, 10th and 37th. (`rt try --fail-alloc N` lets one fail, and builds again for each N.) Within 20 seconds each run must end
# with exit code 6, its line and no output, or with the script's whole output. PROGRAM is the program (default:
# crates/strokes/out/strokes).
#
# A test that begins again after NoMemory must pass each time. There are two: desk_tests::scripts::a_settled_desk_has_the_pixmaps_of_its_script
# settles worked scripts on desks, and in crew_tests::together::artists_lose_no_command two artists draw a script. TESTS is the
# program of the crate's tests (default: what rt test made there). ./test runs both. The exit code is 1 if a run ended otherwise.
[ "$1" != --help ] || exec sed -n '2,/^[^#]/s/^# \{0,1\}//p' "$0"
here=$(cd "$(dirname "$0")/.." && pwd) || exit 70
program=${PROGRAM:-$here/crates/strokes/out/strokes}
tmp=$(mktemp -d) || exit 70
trap 'rm -rf "$tmp"' EXIT
status=0

# A stroke that is undone, one that is cancelled after three jobs, and a redo; a stroke that is undone and redone between
# exports; a group that is removed and comes back.
printf 'canvas 3 1\nlayer 1 0 0\nstroke 1 1\nfill 1 seq 0 0 3 1 ff0000ff over 255\nend 1\nundo\nstroke 2 1\nfill 2 con 0 0 1 1 00ff00ff over 255\nfill 2 con 1 0 1 1 00ff00ff over 255\nfill 2 con 2 0 1 1 00ff00ff over 255\ncancel 2\nredo\nexport\n' >"$tmp/cancelled"
printf 'canvas 1 1\nlayer 1 0 0\nstroke 1 1\nfill 1 seq 0 0 1 1 ff0000ff over 255\nend 1\nexport\nundo\nexport\nredo\nexport\n' >"$tmp/undone"
printf 'canvas 1 1\ngroup 1 0 0\nlayer 2 1 0\nlook 1 77 over on\nstroke 1 2\nfill 1 seq 0 0 1 1 000000ff over 255\nend 1\nremove 1\nexport\nundo\nexport\n' >"$tmp/removed"
# One of them in larger: several threads paint a job, and walks wait beside it.
{
    printf 'canvas 700 500\ngroup 1 0 0\nlayer 2 1 0\nlayer 3 0 0 2040ff80\nstroke 1 2\n'
    printf 'fill 1 con %s 0 200 500 ff0000c0 over 255\n' 0 200 400
    printf 'blur 1 bar 20 20 600 400 5\nmove 1 seq 0 0 300 300 200 100\nend 1\nexport\nstroke 2 3\n'
    printf 'dab 2 con %s 200 60 soft 00ff00ff over 255\n' 100 300 500
    printf 'cancel 2\nundo\nexport\nredo\nremove 1\nundo\nexport\n'
} >"$tmp/large"

# Counts the calls that ask for memory, and refuses those that FAIL_AT, FAIL_FROM or FAIL_EACH names. Where FAIL_TELL is set
# each refusal is told on the error stream.
shim() {
    cat >"$tmp/shim.c" <<'C'
#define _GNU_SOURCE
#include <errno.h>
#include <stdatomic.h>
#include <stdlib.h>
#include <unistd.h>
void *__libc_malloc(size_t), *__libc_calloc(size_t, size_t), *__libc_realloc(void *, size_t), *__libc_memalign(size_t, size_t);
static atomic_long calls;
static long at, from, each, tell;
static long number(const char *name) { const char *s = getenv(name); return s ? atol(s) : 0; }
__attribute__((constructor)) static void begin(void) {
    at = number("FAIL_AT"), from = number("FAIL_FROM"), each = number("FAIL_EACH"), tell = number("FAIL_TELL");
    atomic_store(&calls, 0);
}
static int fails(void) {
    long n = atomic_fetch_add(&calls, 1) + 1;
    int no = n == at || (from && n >= from) || (each && n % each == 0);
    if (no && tell && write(2, "refused\n", 8) < 0) _exit(71);
    if (no) errno = ENOMEM;
    return no;
}
void *malloc(size_t n) { return fails() ? 0 : __libc_malloc(n); }
void *calloc(size_t m, size_t n) { return fails() ? 0 : __libc_calloc(m, n); }
void *realloc(void *p, size_t n) { return n && fails() ? 0 : __libc_realloc(p, n); }
void *memalign(size_t a, size_t n) { return fails() ? 0 : __libc_memalign(a, n); }
void *aligned_alloc(size_t a, size_t n) { return fails() ? 0 : __libc_memalign(a, n); }
int posix_memalign(void **p, size_t a, size_t n) { if (fails()) return ENOMEM; *p = __libc_memalign(a, n); return *p ? 0 : ENOMEM; }
C
    cc -O1 -shared -fPIC -o "$tmp/shim.so" "$tmp/shim.c" || exit 70
}

# ended WHAT SCRIPT: whether the last run ended as it should.
ended() {
    runs=$((runs + 1))
    case $code in
    0) if cmp -s "$tmp/out" "$tmp/right"; then whole=$((whole + 1)); return; fi ;;
    6) if [ ! -s "$tmp/out" ] && [ "$(cat "$tmp/err")" = 'strokes: out of memory' ]; then none=$((none + 1)); return; fi ;;
    esac
    status=1
    echo "ODD $1 of $2: code $code, $(wc -c <"$tmp/out") bytes, told: $(head -c 200 "$tmp/err")"
}

# refusing NAME=N WORKERS SCRIPT WORDS..: one run in which that is refused.
refusing() {
    which=$1 workers=$2 file=$3
    shift 3
    env "$which" LD_PRELOAD="$tmp/shim.so" timeout 20 "$program" --workers "$workers" "$@" <"$file" >"$tmp/out" 2>"$tmp/err"
    code=$?
    ended "$which, $workers workers" "$(basename "$file") $*"
}

# swept STEP WORKERS SCRIPT WORDS..: each STEPth growth refused, until thirty in a row have the whole output: then there are
# no more growths to refuse.
swept() {
    step=$1 many=$2 text=$3
    shift 3
    "$program" --workers "$many" "$@" <"$text" >"$tmp/right"
    runs=0 whole=0 none=0 n=1 row=0
    while [ $row -lt 30 ]; do
        before=$whole
        refusing FAIL_AT=$n "$many" "$text" "$@"
        refusing FAIL_FROM=$n "$many" "$text" "$@"
        if [ $whole -eq $((before + 2)) ]; then row=$((row + 1)); else row=0; fi
        n=$((n + step))
    done
    for each in 2 3 10 37; do
        refusing FAIL_EACH=$each "$many" "$text" "$@"
    done
    echo "$(basename "$text") by $* with $many workers: growths up to some $((n - 30 * step)), of which each ${step}th was refused: $runs runs, $none ended with code 6, $whole with the whole output"
}

built() {
    [ -x "$program" ] || { echo "fail-alloc: $program isn't there" >&2; exit 70; }
    shim
    for script in "$tmp/cancelled" "$tmp/undone" "$tmp/removed" "$tmp/large"; do
        each_of=1
        [ "$script" != "$tmp/large" ] || each_of=7
        for emit in picture log; do
            for crew in 0 2; do
                swept $each_of $crew "$script" --emit $emit
            done
        done
    done
    for script in "$tmp/cancelled" "$tmp/undone" "$tmp/removed"; do
        "$program" --workers 2 --emit trace <"$script" >"$script.trace"
        swept 1 2 "$script" --emit trace
        swept 1 2 "$script.trace" --replay --emit log
    done
}

# tested CRATE::NAME STEP: until there are no more growths to refuse.
tested() {
    crate=${1%%::*}
    tests=${TESTS:-$here/crates/$crate/out/${crate}_tests}
    [ -x "$tests" ] || { echo "fail-alloc: $tests isn't there: rt test in crates/$crate makes it" >&2; exit 70; }
    shim
    # (in a program of the tests of several crates its name begins with that of the crate)
    name=$("$tests" --list | sed -n "s/^\(\($crate::\)\{0,1\}${1#*::}\): test\$/\1/p")
    [ -n "$name" ] || { echo "fail-alloc: $tests has no test $1" >&2; exit 70; }
    n=1 passed=0
    while :; do
        env FAIL_TELL=1 FAIL_AT=$n LD_PRELOAD="$tmp/shim.so" timeout 60 "$tests" "$name" >"$tmp/out" 2>"$tmp/err"
        code=$?
        grep -q refused "$tmp/err" || break
        if [ $code = 0 ]; then
            passed=$((passed + 1))
        else
            status=1
            echo "ODD growth $n of $1: code $code, told: $(head -c 200 "$tmp/err")"
        fi
        n=$((n + $2))
    done
    echo "$1: growths up to $((n - 1)), each of $2 refused alone: it passed $passed times"
}

case ${1:-built} in
test) tested "${2:?}" "${3:-1}" ;;
*) built ;;
esac
exit $status
