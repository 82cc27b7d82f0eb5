#!/usr/bin/env bash
# What only real files and streams show: files that can't be opened, links, locks, devices that are full, standard streams
# that are closed, and little memory. What the program answers over plain files stands in scripts/cases.py.
# Usage: scripts/end_to_end.sh [PROGRAM]. The last line is 'N passed, M failed'.
set -u
top=$(cd "$(dirname "$0")/.." && pwd)
program=$(realpath -m "${1:-$top/crates/aftr/out/aftr}")
if [ ! -x "$program" ]; then
    echo "no program at $program: run scripts/build.sh" >&2
    exit 1
fi

folder=$(mktemp -d) || exit 1
trap 'chmod -R u+rwx "$folder" && rm -rf "$folder"' EXIT
passed=0
failed=0

# ---- bytes

# Prints the bytes that these hexadecimal digits spell.
bytes() {
    local digits="${*//[[:space:]]/}" at
    for ((at = 0; at < ${#digits}; at += 2)); do
        printf "\\x${digits:at:2}"
    done
}

# The hexadecimal digits of a file's bytes, or 'missing'.
digits_of() {
    if [ -e "$1" ]; then
        od -An -v -tx1 "$1" | tr -d ' \n'
    else
        printf missing
    fi
}

# The same digits without the spaces that make them readable.
plain() {
    printf '%s' "${*//[[:space:]]/}"
}

# ---- packets

# A subscriber sends "abcd" from 192.0.0.2 port 5000 to 203.0.113.5 port 53, in its softwire to the AFTR.
first_packet="00000051 01 00000000000f4240 60000000 0020 04 40
    20010db8010000000000000000000002 20010db8000000000000000000000001
    45000020 00010000 40117ec4 c0000002 cb007105 13880035 000c2b4a 61626364"
# It leaves from the pool's first place, 192.0.2.8 port 1024, with one hop less.
first_sent="00000029 02 00000000000f4240
    45000020 00010000 3f117dbe c0000208 cb007105 04000035 000c38cc 61626364"
# The log (RFC 7011): templates, names are promised up to 1,002,000, and this prefix got ports 1024 to 1535 of 192.0.2.8.
header="41465452 4c4f4701 00000000 00000000"
templates="0002 0044 0100 0007 0143 0008 00e6 0001 001b 0010 001d 0001 00e1 0004 0169 0002 016a 0002
    0101 0002 0143 0008 8001 0008 00007ed9 0102 0002 0143 0008 8002 ffff 00007ed9"
first_block="00000000000f4240 10 20010db8010000000000000000000000 38 c0000208 0400 05ff"
empty_log="$header 00"
first_log="$header 01 0000008e 000a 008e 000003e8 00000000 00000001 $templates
    0101 0014 00000000000f4240 00000000000f4a10 0100 0026 $first_block 00"

# Another subscriber's packet for the same input.
other_subscriber="00000051 01 00000000000f4241 60000000 0020 04 40
    20010db8010001000000000000000002 20010db8000000000000000000000001
    45000020 00010000 40117ec4 c0000002 cb007105 13880035 000c2b4a 61626364"
subscriber="2001:0db8:0100:0000:0000:0000:0000:0000/56"
second_subscriber="2001:0db8:0100:0100:0000:0000:0000:0000/56"

# ---- cases

# Starts a case in a folder of its own: an empty configuration, a log that was just made, and this input, in hexadecimal
# digits.
start() {
    name=$1
    work="$folder/files"
    difference=""
    rm -rf "$work"
    mkdir "$work"
    : > "$work/config.toml"
    bytes "$2" > "$work/in0"
    bytes "$empty_log" > "$work/log"
}

# Runs the program on these words, in the case's folder. Its report goes to the file $output.
output=report
run() {
    (cd "$work" && "$program" "$@" > "$output" 2> errors)
    status=$?
    difference=""
}

# Runs the program on these words with its standard output closed, so that its report has nowhere to go.
run_unheard() {
    (cd "$work" && "$program" "$@" >&- 2> errors)
    status=$?
    difference=""
    same "standard error" "$(cat "$work/errors" && echo .)" .
}

# Notes a difference of this thing between what it is and what it should be.
same() {
    if [ "$2" != "$3" ]; then
        difference+="    $1 is '$2' and should be '$3'"$'\n'
    fi
}

# Ends a case by the status and the report that it should have, each of its lines given by itself.
ends_with() {
    same status "$status" "$1"
    shift
    # the point keeps the line feed at the end
    same report "$(cat "$work/report" && echo .)" "$(printf '%s\n' "$@" .)"
    same "standard error" "$(cat "$work/errors" && echo .)" .
    count_case
}

# Ends a case by the status that it should have, without a report.
ends_silently() {
    same status "$status" "$1"
    same report "$(digits_of "$work/report")" ""
    same "standard error" "$(cat "$work/errors" && echo .)" .
    count_case
}

# The case's outlet and log should hold these bytes.
leaves() {
    same outlet "$(digits_of "$work/out")" "$(plain "$1")"
    same log "$(digits_of "$work/log")" "$(plain "$2")"
}

# Starts a case on a log of these bytes, in hexadecimal digits.
start_log() {
    start "$1" ""
    bytes "$2" > "$work/log"
}

# A query should make no outlet, and leave the log as it was: these bytes, or 'missing'.
asks_only() {
    leaves missing "$1"
}

count_case() {
    if [ -z "$difference" ]; then
        passed=$((passed + 1))
    else
        failed=$((failed + 1))
        printf 'failed: %s\n%s' "$name" "$difference"
    fi
}

command=(run config.toml log out in0)

start "a log that is made, run on and asked" "$first_packet $other_subscriber"
rm "$work/log"
run init log
same log "$(digits_of "$work/log")" "$(plain "$empty_log")"
ends_silently 0
run "${command[@]}"
ends_with 0 "records 2" "sent 2" "marks 0"
run leases log
ends_with 0 "lease 192.0.2.8 1024 1535 1000000 open $subscriber" \
    "lease 192.0.2.8 1536 2047 1000001 open $second_subscriber" "horizon 1002000"
run trace log 192.0.2.8 1024 1000000
ends_with 0 "named $subscriber"
run init log
ends_with 9 "fault AlreadyThere 291"

# ---- files that can't be opened

start "a log whose folder is missing" "$first_packet"
bytes "$first_sent" > "$work/out"
run run config.toml nowhere/log out in0
leaves "$first_sent" "$empty_log"
ends_with 5 "fault LogFault"
run init nowhere/log
ends_with 5 "fault LogFault"
run leases nowhere/log
ends_with 5 "fault LogFault"

start "a query of a log that is missing" ""
rm "$work/log"
run leases log
asks_only missing
ends_with 5 "fault LogFault"
run trace log 192.0.2.8 1024 0
asks_only missing
ends_with 5 "fault LogFault"

start "a log that is a folder" "$first_packet"
mkdir "$work/logs"
run run config.toml logs out in0
leaves missing "$empty_log"
ends_with 5 "fault LogFault"
run leases logs
ends_with 5 "fault LogFault"

if [ "$(id -u)" -ne 0 ]; then
    start_log "a log that may only be read" "$first_log"
    chmod a-w "$work/log" "$work"
    (cd "$work" && "$program" leases log > "$folder/report" 2> "$folder/errors")
    status=$?
    chmod u+w "$work" && mv "$folder/report" "$folder/errors" "$work"
    asks_only "$first_log"
    ends_with 0 "lease 192.0.2.8 1024 1535 1000000 open $subscriber" "horizon 1002000"
    run "${command[@]}"
    leaves missing "$first_log"
    ends_with 5 "fault LogFault"

    start_log "a log that may not be read" "$first_log"
    chmod a-rw "$work/log"
    run leases log
    chmod u+rw "$work/log"
    asks_only "$first_log"
    ends_with 5 "fault LogFault"
else
    echo "skipped: a log without permission, since root may read and write all files"
fi

# ---- one file by two names

for other in log config.toml in0; do
    for link in "ln" "ln -s"; do
        start "an outlet that is $other by $link" "$first_packet"
        before=$(digits_of "$work/$other")
        (cd "$work" && $link "$other" out)
        run "${command[@]}"
        same "$other" "$(digits_of "$work/$other")" "$before"
        same log "$(digits_of "$work/log")" "$(plain "$empty_log")"
        ends_with 5 "fault LogFault"
    done
done

# ---- one log by two commands

# A run that reads its input from a pipe holds its log as long as the pipe is open.
start "a log that a run holds" "$first_packet"
bytes "$first_sent" > "$work/out2"
mkfifo "$work/pipe"
(cd "$work" && exec "$program" run config.toml log out pipe > report1 2> errors1) &
first_run=$!
exec 3> "$work/pipe"
bytes "$first_packet" >&3
# the packet is sent once its lease is logged
for ((wait = 0; wait < 200; wait++)); do
    if [ "$(digits_of "$work/out")" = "$(plain "$first_sent")" ]; then break; fi
    sleep 0.05
done
leaves "$first_sent" "$first_log"
run run config.toml log out2 in0
same "second outlet" "$(digits_of "$work/out2")" "$(plain "$first_sent")"
leaves "$first_sent" "$first_log"
ends_with 5 "fault LogFault"
run init log
leaves "$first_sent" "$first_log"
ends_with 5 "fault LogFault"
name="a query of a log that a run holds"
run leases log
ends_with 0 "lease 192.0.2.8 1024 1535 1000000 open $subscriber" "horizon 1002000"
run trace log 192.0.2.8 1024 1000000
leaves "$first_sent" "$first_log"
ends_with 0 "named $subscriber"
name="the run that held its log"
exec 3>&-
wait "$first_run"
status=$?
difference=""
mv "$work/report1" "$work/report" && mv "$work/errors1" "$work/errors"
leaves "$first_sent" "$first_log"
ends_with 0 "records 1" "sent 1" "marks 0"

# ---- what reaches the disk, by the calls on the system

# Runs the program on these words and prints the traced calls on the system, one a line.
traced() {
    (cd "$work" && strace -f -o calls -e trace=open,openat,fsync,fdatasync,flock,fcntl,pwrite64,write "$program" "$@" \
        > report 2> errors)
    status=$?
    difference=""
}

# The number of the first traced call that this pattern fits, or 0.
call_number() {
    local found
    found=$(grep -n -m 1 -E "$1" "$work/calls" | cut -d: -f1)
    echo "${found:-0}"
}

if strace -o /dev/null true 2> /dev/null; then
    start "a new log's folder is synced before the log is written" ""
    rm "$work/log"
    traced init log
    opened=$(call_number '"log", .*O_CREAT')
    folder_number=$(sed -n -E 's/.*"\.", .*\) = ([0-9]+)$/\1/p' "$work/calls" | tail -n 1)
    synced=$(call_number "f(data)?sync\(${folder_number:-none}\) += 0")
    written=$(call_number 'pwrite64\(.*AFTRLOG')
    same "order of calls" "$((opened > 0 && opened < synced && synced < written))" 1
    ends_silently 0

    start_log "a query opens its log for reading alone" "$first_log"
    traced leases log
    same "calls that open the log" "$(grep -c '"log"' "$work/calls")" 1
    flags=$(sed -n -E 's/.*"log", ([A-Z_|]*).*/\1/p' "$work/calls")
    same "its access" "${flags%%|*}" O_RDONLY
    same "flags that make or empty it" "$(grep -c -E 'O_(CREAT|TRUNC|APPEND)' <<< "$flags")" 0
    same "locks" "$(grep -c -E 'flock|F_(OFD_)?SETLK' "$work/calls")" 0
    ends_with 0 "lease 192.0.2.8 1024 1535 1000000 open $subscriber" "horizon 1002000"

    start "a packet is sent after its lease is synced" "$first_packet"
    traced "${command[@]}"
    written=$(call_number 'pwrite64\(.*, 147, 17\) ')
    gate=$(call_number 'pwrite64\([0-9]+, "\\1", 1, 16\) ')
    sent=$(call_number 'write\(.*, 45\) ')
    syncs=$(grep -n -E 'f(data)?sync\(' "$work/calls" | cut -d: -f1 | awk -v a="$written" -v b="$gate" -v c="$sent" \
        '$1 > a && $1 < b { first = 1 } $1 > b && $1 < c { second = 1 } END { print first + second }')
    same "order of calls" "$((written > 0 && written < gate && gate < sent))" 1
    same "syncs before and after the gate's write" "$syncs" 2
    ends_with 0 "records 1" "sent 1" "marks 0"
else
    echo "skipped: no strace, so the calls on the system aren't looked at"
fi

# ---- little memory

# A log of 65,536 leases, in 1,024 frames, doesn't fit where the program may have 6,000 KiB in all.
start "a log that tells more than memory holds" ""
python3 - "$top/scripts" > "$work/log" << 'PYTHON'
import sys
sys.path.insert(0, sys.argv[1])
import log_form
from log_form import CLOSING, OPENING, Batch, Lease, Prefix
lease = Lease(Prefix(0x20010DB8 << 96, 56), 0xC0000208, 1024, 1535, 1_000_000)
records = 64 * (lease.record(OPENING, 1_000_000) + lease.record(CLOSING, 1_000_000))
sets = log_form.TEMPLATES + log_form.spelled_set(log_form.BLOCKS, records)
messages = [Batch(1_000_000, horizon=1_000_000).message(0)]
messages += [log_form.spelled_message(1000, 1 + 128 * number, sets) for number in range(1024)]
sys.stdout.buffer.write(log_form.spelled_log(messages))
PYTHON
size=$(wc -c < "$work/log")
(cd "$work" && ulimit -v 6000 && exec "$program" leases log > report 2> errors)
status=$?
same "log's size" "$(wc -c < "$work/log")" "$size"
ends_with 10 "fault NoMemory"

# ---- devices that are full, and streams that are closed

# A full device takes no byte: what is lost there is a fault of the outlet or of the report.
if [ -w /dev/full ]; then
    start "an outlet that fails" "$first_packet"
    run run config.toml log /dev/full in0
    same log "$(digits_of "$work/log")" "$(plain "$first_log")"
    ends_silently 6

    start "a report that fails" "$first_packet"
    output=/dev/full run "${command[@]}"
    same status "$status" 6
    leaves "$first_sent" "$first_log"
    count_case
else
    echo "skipped: no /dev/full, so no outlet and no report that fail"
fi

start "an outlet that can't be opened, and nothing to send" "00000009 03 00000000000f4240"
run run config.toml log missing/out in0
leaves missing "$empty_log"
ends_with 0 "records 1" "sent 0" "marks 0"

start "an outlet that can't be opened, and a packet" "$first_packet"
run run config.toml log missing/out in0
leaves missing "$first_log"
ends_silently 6

# Nor does a file take the place of a standard stream that is closed: the report goes nowhere, least of all into the log.
start "a run that nobody hears" "$first_packet"
run_unheard "${command[@]}"
same status "$status" 6
leaves "$first_sent" "$first_log"
count_case

start_log "leases that nobody hears" "$first_log"
run_unheard leases log
same status "$status" 6
asks_only "$first_log"
count_case

start_log "a trace that nobody hears" "$first_log"
run_unheard trace log 192.0.2.8 1024 1000000
same status "$status" 6
asks_only "$first_log"
count_case

start "a refusal that nobody hears" "$first_packet"
run_unheard run missing log out in0
same status "$status" 6
leaves "" "$empty_log"
count_case

start "a refusal without any standard stream" "$first_packet"
(cd "$work" && "$program" run missing log out in0 <&- >&- 2>&-)
status=$?
difference=""
same status "$status" 6
leaves "" "$empty_log"
count_case

start "a log that nobody hears of" ""
rm "$work/log"
run_unheard init log
same log "$(digits_of "$work/log")" "$(plain "$empty_log")"
same status "$status" 0
count_case

echo "$passed passed, $failed failed"
[ "$failed" -eq 0 ]
