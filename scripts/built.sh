# shellcheck shell=bash
# What the program was built from. Sourced at the top of the repository, by .ci/run and scripts/build.sh.
program=crates/aftr/out/aftr
mark=crates/aftr/out/built-from

# Prints the sum of the toolchain's version and of every file below crates/ but those that the toolchain makes.
sum_of_sources() {
    local files=(crates.txt crates)
    if [ -e HANDLES ]; then files+=(HANDLES); fi
    {
        rt version
        find "${files[@]}" -regex 'crates/[^/]*/out' -prune -o -type f -print0 | LC_ALL=C sort -z | xargs -0 sha256sum
    } | sha256sum
}

# Notes that the program was built from the sources of this sum; fails where one of them has changed meanwhile.
note_built() {
    [ -x "$program" ] && [ "$(sum_of_sources)" = "$1" ] && { echo "$1" && sha256sum < "$program"; } > "$mark"
}

# Whether the program that stands there was built from the sources as they are.
is_built() {
    [ -x "$program" ] && [ -f "$mark" ] && [ "$(cat "$mark")" = "$(sum_of_sources && sha256sum < "$program")" ]
}
