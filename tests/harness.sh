#!/bin/sh
# The harness finds the faults that are planted, where docs/HARNESS.md says, and has as many edges as that says.
. "$(dirname "$0")/common"
needs build/harness

edges=$(build/harness --count | sed 's/\([0-9]*\)\([0-9]\{3\}\) edges/\1,\2/')
grep -q "harness/src/edges.rs\`), $edges calls" docs/HARNESS.md || fail "docs/HARNESS.md does not say that there are $edges edges"

planted=$(build/harness --help 2>&1 | sed -n 's/^faults: //p' | tr -d ,)
count=0
for fault in $planted; do
    found=$(build/harness --plant "$fault" | sed -n 's/^[A-Z ]* in \(case [0-9]*\) of seed 1:.*/\1/p')
    [ -n "$found" ] || fail "the fault $fault is not found"
    grep -q "^| \`$fault\` | .* | $found | " docs/HARNESS.md || fail "$fault is found in $found; docs/HARNESS.md says otherwise"
    count=$((count + 1))
done
[ "$count" -eq "$(grep -c '^| `[a-z-]*` | .* | case [0-9]* | ' docs/HARNESS.md)" ] || fail 'docs/HARNESS.md has another number of faults'

echo "harness: $count planted faults are found where the document says; $edges edges"
