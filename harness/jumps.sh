#!/bin/sh
# Turns each conditional jump of the library round, one at a time, in a copy of build/harness, and runs the copy: it must find
# a difference, crash or run on past its time. Prints the jumps that went unseen. CASES (default 2000) is the length of a run.
#
#   harness/jumps.sh [FUNCTION...]     of these functions, or of all
set -eu
cd "$(dirname "$0")/.."
program=build/harness
copy=build/harness.turned
cases=${CASES:-2000}

[ $# -gt 0 ] || set -- $(nm build/libzagvulem.a | awk '$2 == "t" || $2 == "T" { print $3 }')
text=$((0x$(objdump -h "$program" | awk '$2 == ".text" { print $4 }')))
offset=$((0x$(objdump -h "$program" | awk '$2 == ".text" { print $6 }')))

total=0 differ=0 crash=0 slow=0 unseen=0
for function; do
    jumps=$(objdump -d --disassemble="$function" "$program" |
        awk -F '\t' '$2 ~ /^7[0-9a-f] / { sub(":", "", $1); print $1 ":0:" substr($2, 1, 2) }
                     $2 ~ /^0f 8[0-9a-f] / { sub(":", "", $1); print $1 ":1:" substr($2, 4, 2) }' | tr -d ' ')
    for jump in $jumps; do
        IFS=: read -r at skip code <<-END
	$jump
	END
        cp "$program" "$copy"
        turned=$(printf '%o' $((0x$code ^ 1)))
        printf "\\$turned" | dd of="$copy" bs=1 seek=$((0x$at - text + offset + skip)) conv=notrunc status=none
        status=0
        timeout 60 "$copy" --cases "$cases" --threads 1 >build/turned.out 2>&1 || status=$?
        total=$((total + 1))
        case $status in
        0) unseen=$((unseen + 1)); echo "unseen: $function, jump at $at" ;;
        1) differ=$((differ + 1)) ;;
        124) slow=$((slow + 1)) ;;
        *) crash=$((crash + 1)) ;;
        esac
    done
done
rm -f "$copy" build/turned.out
echo "$total jumps turned: $differ differences, $crash crashes, $slow that do not end, $unseen unseen"
