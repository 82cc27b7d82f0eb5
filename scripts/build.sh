#!/usr/bin/env bash
# Proves and builds the program, which then stands at crates/aftr/out/aftr, and makes a log with it once.
# Where it was built from the sources as they are, nothing is done. It says what went wrong, and nothing else.
set -u
cd "$(dirname "$0")/.." || exit 1
if ! command -v rt > /dev/null; then
    echo "no rt: the Rattle toolchain is missing" >&2
    exit 1
fi
. scripts/built.sh
if is_built; then exit 0; fi

folder=$(mktemp -d) || exit 1
trap 'rm -rf "$folder"' EXIT
sources=$(sum_of_sources)
(cd crates/aftr && rt run -- init "$folder/log") > "$folder/said" 2>&1
status=$?
if [ "$status" -ne 0 ]; then
    cat "$folder/said" >&2
    exit "$status"
fi
if ! note_built "$sources"; then
    echo "the sources changed while the program was built: build it again" >&2
    exit 1
fi
