#!/bin/sh
# Runs a command of rt with little output: the line that rt has for each crate, edit and program, but for crates that are kept
# from an earlier run. All that the command prints goes to the file LOG. Where it fails, what it said of each failure follows, cut to 100
# lines, and the log's path. The exit status is the command's.
#
#   tools/quiet.sh LOG [-C FOLDER] COMMAND...       -C: the command runs in FOLDER
log=$1
shift
folder=.
if [ "$1" = -C ]; then
    folder=$2
    shift 2
fi
if ! command -v "$1" >/dev/null; then
    echo "$1 is not on the path: building needs the Rattle kit, as README.md says" >&2
    exit 127
fi
mkdir -p "$(dirname "$log")" || exit 2
{
    (cd "$folder" && "$@") 2>&1
    echo "$?" >"$log.status"
} | while IFS= read -r line; do
    printf '%s\n' "$line" >&3
    case $line in
    'rt: '*' is kept: '* | 'rt: chose '* | *' begins with what '*) ;;
    'rt: '*) printf '%s\n' "$line" ;;
    esac
done 3>"$log"
status=$(cat "$log.status" 2>/dev/null)
rm -f "$log.status"
[ "${status:-1}" -ne 0 ] || exit 0

# what stands in the log between the line before and that of a failure, without what was proved
awk '
    function say(line) {
        if (said++ < 100) print "  " substr(line, 1, 400)
    }
    function failures(   i) {
        for (i = 0; i < held; i++) say(block[i])
    }
    /^rt: / {
        if (/NOT PROVED|NOT REFUSED|NOT TRIED|BAD EDIT|FAILED|is not what|ended with status|was not run/) {
            failures()
            if (!/^rt: FAILED:/ && !/NOT PROVED: its library /) say($0)
        }
        held = 0
        following = /BAD EDIT/ ? 5 : 0
        next
    }
    following-- > 0 { say($0); next }
    /^(so far: )?fn .*: proved$/ || /^checked / || /^so far: [0-9]+ of / || /^(library|statements|crate) / || /^logic / || /^logic=proved/ || / passed, [0-9]* failed$/ { next }
    { block[held++] = $0 }
    END {
        failures()
        if (said > 100) print "  ... and " said - 100 " lines more"
    }' "$log"
echo "$* failed; the log is $log"
exit "${status:-1}"
