#!/bin/sh
# Instructions a packet of the older library and of ours, by valgrind's callgrind: three replays less one, halved. Unlike
# times they are the same in every run. Needs `compare` built with the feature `before`, and Debian's valgrind.
#   sh instructions.sh [FILE.ts ...]     each with FILE.ts.profile beside it, as `compare streams` writes it
set -eu
cd "$(dirname "$0")"
tool=target/release/compare
streams=${STREAMS:-streams}
[ $# -gt 0 ] || set -- "$streams/ff_big.ts" "$streams/ff_cbr3M.ts" "$streams/ff_many.ts" "$streams/gst_cbr5M.ts"
command -v valgrind >/dev/null || { echo "no valgrind" >&2; exit 2; }
said=$(mktemp)
trap 'rm -f "$said"' EXIT

# count FILE WHICH TIMES: all instructions of the process; what the tool prints is left in $said.
count() {
    valgrind --tool=callgrind --callgrind-out-file=/dev/null --log-fd=3 \
        $tool versus --once "$1" --which "$2" --times "$3" 3>&1 >"$said" | sed -n 's/.*Collected : *\([0-9]*\).*/\1/p'
}

for file; do
    before=$(($(count "$file" before 3) - $(count "$file" before 1)))
    after=$(($(count "$file" after 3) - $(count "$file" after 1)))
    packets=$(sed 's/ .*//' "$said")
    [ -n "$packets" ] || exit 1
    echo "$packets $before $after $file" | awk '{
        n = 2 * $1; b = $2; a = $3; sub(/^[^ ]* [^ ]* [^ ]* /, "")
        printf "%s: %d packets, instructions a packet before %.1f, after %.1f, after/before %.4f\n", $0, n / 2, b / n, a / n, a / b
    }'
done
