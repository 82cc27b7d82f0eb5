#!/usr/bin/env bash
# Measures programs side by side: packets per second over inputs of 10,000 and 100,000 frames of 200 subscribers, the
# best of three runs each, which take turns. Usage: scripts/benchmark.sh [PROGRAM..], the built one where none is given.
# A measurement, which nothing is tested by.
set -eu
top=$(cd "$(dirname "$0")/.." && pwd)
subscribers=200
runs=3
if [ $# -eq 0 ]; then set -- "$top/crates/aftr/out/aftr"; fi
for program in "$@"; do
    if [ ! -x "$program" ]; then
        echo "no program at $program: run scripts/build.sh" >&2
        exit 1
    fi
done

folder=$(mktemp -d) || exit 1
trap 'rm -rf "$folder"' EXIT
: > "$folder/config.toml"

# Prints how many nanoseconds one run of this program takes on a log that was just made.
time_run() {
    rm -f "$folder/log" "$folder/out"
    "$1" init "$folder/log" || return 1
    local start end
    start=$(date +%s%N)
    "$1" run "$folder/config.toml" "$folder/log" "$folder/out" "$folder/in0" > "$folder/report" || return 1
    end=$(date +%s%N)
    echo $((end - start))
}

echo "processor: $(grep -m 1 '^model name' /proc/cpuinfo | cut -d: -f2 | sed 's/^ *//')"
echo "files on: $(stat -f -c %T "$folder")"
for frames in 10000 100000; do
    python3 "$top/scripts/make_frames.py" "$folder/in0" --frames "$frames" --subscribers "$subscribers"
    best=()
    sent=()
    for ((run = 0; run < runs; run++)); do
        at=0
        for program in "$@"; do
            took=$(time_run "$program")
            if [ "$run" -eq 0 ] || [ "$took" -lt "${best[at]}" ]; then best[at]=$took; fi
            sent[at]=$(sed -n 's/^sent //p' "$folder/report")
            at=$((at + 1))
        done
    done
    at=0
    for program in "$@"; do
        speed="$((frames * 1000000000 / best[at])) packets per second, $((best[at] / frames)) ns a packet"
        echo "$frames frames, ${sent[at]} sent: $speed, by $program"
        at=$((at + 1))
    done
done
