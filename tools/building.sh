# shellcheck shell=sh disable=SC2154
# What ./strokes, ./prove and the tools share. They set `here`, the top of the checkout, and then read this file.

# Prints a line on standard error.
say() {
    printf '%s\n' "${0##*/}: $*" >&2
}

# The lines of crates.txt for the program's crates, each after those that it needs; or for the library's, if `top` names its
# crate.
lines_of_program() {
    awk -F: -v top="${top:-strokes}" '
        function take(name, words, many, k) {
            if (name in seen || !(name in below)) return
            seen[name]
            many = split(below[name], words, " ")
            for (k = 1; k <= many; k++) take(words[k])
            print line[name]
        }
        !/^#/ && NF > 1 { split($1, names, " "); below[names[1]] = $2; line[names[1]] = $0 }
        END { take(top) }' "$here/crates.txt"
}

# The names of these crates.
crates_of_program() {
    lines_of_program | sed 's/[ :].*//'
}

# These parts (src, specs ..) of these crates, if they exist, as paths below the top.
parts_of_program() {
    for crate in $(crates_of_program); do
        for part; do
            [ ! -e "$here/crates/$crate/$part" ] || echo "crates/$crate/$part"
        done
    done
}

# A checksum of these parts of the crates, of their lines in crates.txt, and of HANDLES.
sum_of() {
    {
        lines_of_program
        cat "$here/HANDLES" 2>/dev/null
        (cd "$here" && parts_of_program "$@" | xargs sh -c 'find "$@" -type f' sh | LC_ALL=C sort | xargs sha256sum)
    } | sha256sum | cut -d ' ' -f 1
}

# The kind of processor to compile for: one that handles eight numbers at a time (most since 2013 to 2015)
# if this one does, otherwise the newest older kind that fits.
processor() {
    features=" $(grep -m1 '^flags' /proc/cpuinfo 2>/dev/null) "
    if has avx2 bmi1 bmi2 f16c fma abm movbe; then
        echo x86-64-v3
    elif has cx16 lahf_lm popcnt sse4_1 sse4_2 ssse3; then
        echo x86-64-v2
    else
        echo x86-64
    fi
}

# Whether all of these are among the features.
has() {
    for feature; do
        case $features in
        *" $feature "*) ;;
        *) return 1 ;;
        esac
    done
}

# The folder of the toolchain whose rt is on PATH.
kit() {
    page=$(rt doc 2>/dev/null) && [ -f "$page" ] && dirname "$page"
}

# Links an object file and the toolchain's C library into a program: KIT OBJECT PROGRAM.
link() {
    "$1/bin/rattle-link" --target x86_64-unknown-linux-gnu --toolchain "$1/toolchain" -o "$3" "$2" \
        "$1/c/libos_c.a" "$1/c/liblibc_c.a"
}

# Waits until no other call has this folder, and keeps it until this call ends, however it ends. Processes
# that are started meanwhile must close 9, so that they don't keep the folder.
alone_in() {
    mkdir -p "$1" && exec 9<"$1" || return
    flock -n 9 2>/dev/null || {
        say "another call is building; waiting for it"
        flock 9 2>/dev/null || :
    }
}
