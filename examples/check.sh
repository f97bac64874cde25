#!/bin/sh
# Runs the built program on each example, with a shelf in memory and with one in a folder, with one worker and with four,
# and on inputs that it refuses: compares standard output, the status, and what standard error says.
#
#     examples/check.sh [PROGRAM]      PROGRAM is crates/spie/out/spie by default
here=$(dirname "$0")
spie=${1:-$here/../crates/spie/out/spie}
out=$(mktemp) err=$(mktemp) folder=$(mktemp -d)
failed=0

[ -x "$spie" ] || { echo "no program at $spie: build it first (README.md)"; exit 2; }

check() { # NAME WANTED GOT
    if [ "$2" != "$3" ]; then
        echo "$1: $3 in place of $2"
        failed=1
    fi
}

says() { # NAME TEXT
    if ! grep -qF -- "$2" "$err"; then
        echo "$1: standard error does not say: $2"
        failed=1
    fi
}

replays() { # TRACE REPORT, and then the words behind `replay`
    trace=$1 report=$2
    shift 2
    "$spie" replay "$@" < "$trace" > "$out" 2> "$err"
    check "$trace" 0 $?
    cmp -s "$out" "$report" || { echo "$trace: another report"; failed=1; }
    [ -s "$err" ] && { echo "$trace: standard error is not empty"; failed=1; }
}

for trace in "$here"/*.trace; do
    replays "$trace" "${trace%.trace}.report" 1
    rm -f "$folder"/*
    replays "$trace" "${trace%.trace}.report" 1 "$folder"
done

# Where no segment has both a record and a rotation or a watch of one router, the report is the same with any workers.
for trace in "$here"/*.trace; do
    case $trace in
        */sixteen_records.trace | */watch_before_and_after.trace) continue ;;
    esac
    replays "$trace" "${trace%.trace}.report" 4
    rm -f "$folder"/*
    replays "$trace" "${trace%.trace}.report" 4 "$folder"
done

# Where the folder is not there, each put fails, and the page stays in memory.
kept=$(mktemp)
sed 's/put 0 kept -/put - kept 0/' "$here/archive_and_read_back.report" > "$kept"
replays "$here/archive_and_read_back.trace" "$kept" 1 "$folder/not-there"

# What was put stands in files, and goes when the page expires.
rm -f "$folder"/*
"$spie" replay 1 "$folder" < "$here/archive_and_read_back.trace" > "$out" 2> "$err"
check "files of a page" "00000000-00000000.bits 00000000-00000000.rows" "$(cd "$folder" && echo *)"
rm -f "$folder"/*
"$spie" replay 1 "$folder" < "$here/expiry_on_the_shelf.trace" > "$out" 2> "$err"
check "files of an expired page" "*" "$(cd "$folder" && echo *)"

for script in "$here"/*.script; do
    "$spie" play < "$script" > "$out" 2> "$err"
    check "$script" 0 $?
    cmp -s "$out" "${script%.script}.report" || { echo "$script: other answers"; failed=1; }
done

# A capture is what its bytes say, and its lines make a trace.
hex=$(mktemp) trace=$(mktemp)
for capture in "$here"/*.pcap; do
    plain=${capture%.pcap}
    sed 's/#.*//' "$plain.hex" | tr -d ' \n' > "$hex"
    [ "$(od -An -v -tx1 "$capture" | tr -d ' \n')" = "$(cat "$hex")" ] || { echo "$capture: other bytes"; failed=1; }
    "$spie" pcap edge 0 0 < "$capture" > "$out" 2> "$err"
    check "$capture" 0 $?
    cmp -s "$out" "$plain.lines" || { echo "$capture: other lines"; failed=1; }
    printf 'spie-trace 1\nshape 3 16 32768 60 10 600 30 5d1e7f03c2a94b86\nrouter edge isp\nbegin\n' > "$trace"
    cat "$out" >> "$trace"
    printf 'query edge 0 0\nend\n' >> "$trace"
    "$spie" replay 1 < "$trace" > "$out" 2> "$err"
    check "a trace of $capture" 0 $?
    grep -q 'answer nodes 1 edges 0 unknown 0 clear 0' "$out" || { echo "a trace of $capture: another answer"; failed=1; }
    "$spie" pcap count < "$capture" > "$out" 2> "$err"
    check "counts of $capture" 0 $?
    cmp -s "$out" "$plain.counts" || { echo "$capture: other counts"; failed=1; }
done
rm -f "$hex" "$trace"

printf 'spie-trace 1\n' | "$spie" pcap count > "$out" 2> "$err"
check "no capture" 3 $?
says "no capture" "spie: a capture begins with a header of 24 bytes"
[ "$(cat "$out")" = "refused 13 short" ] || { echo "no capture: another refusal"; failed=1; }

# A certificate is judged by what stands in it. Without a line of its answer another line fails, and without its end it is none.
answer=$here/nat_between_two.certificate
"$spie" check < "$answer" > "$out" 2> "$err"
check "a certificate" 0 $?
[ "$(cat "$out")" = "yes nodes 4 edges 5 unknown 2 clear 2" ] || { echo "a certificate: another verdict"; failed=1; }
sed '/^clear 3 1/d' "$answer" | "$spie" check > "$out" 2> "$err"
check "a line left out" 1 $?
[ "$(cat "$out")" = "no 28" ] || { echo "a line left out: another verdict"; failed=1; }
sed '/^end/d' "$answer" | "$spie" check > "$out" 2> "$err"
check "no end" 3 $?
[ "$(cat "$out")" = "refused 29 ending" ] || { echo "no end: another refusal"; failed=1; }

"$spie" replay 0 < /dev/null > "$out" 2> "$err"
check "wrong arguments" 2 $?
says "wrong arguments" "usage: spie replay W"

printf 'spie-trace 4\n' | "$spie" replay 1 > "$out" 2> "$err"
check "another version" 3 $?
says "another version" "spie: line 1: a field is not of its form, or out of its range"
[ "$(cat "$out")" = "refused 1 field" ] || { echo "another version: another refusal"; failed=1; }

printf 'spie-play 1\ncore 1 1 6 0000000000000000\n0 jump\nend\n' | "$spie" play > "$out" 2> "$err"
check "no such step" 3 $?
says "no such step" "spie: line 3: no word that may stand here"
[ "$(cat "$out")" = "refused 3 word" ] || { echo "no such step: another refusal"; failed=1; }

head -c 67108865 /dev/zero | "$spie" replay 1 > "$out" 2> "$err"
check "too long an input" 3 $?
says "too long an input" "spie: the input has more than 67,108,864 bytes"
[ "$(cat "$out")" = "refused 0 too-long" ] || { echo "too long an input: another refusal"; failed=1; }

"$spie" replay 1 < "$here" > "$out" 2> "$err"
check "a folder as input" 4 $?
says "a folder as input" "spie: the input can't be read"

if [ -e /dev/full ]; then
    "$spie" replay 1 < "$here/three_in_a_line.trace" > /dev/full 2> "$err"
    check "a full disk" 5 $?
    says "a full disk" "spie: the output can't be written"
fi

rm -rf "$out" "$err" "$folder" "$kept"
[ $failed = 0 ] && echo "all as expected"
exit $failed
