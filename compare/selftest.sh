#!/bin/sh
# Shows that each comparison can fail: builds with the stand-in, which makes one fault at a time on request, and wants
# the named command to end with status 1. Without a fault every command must pass.
set -u
cd "$(dirname "$0")"
cargo build --release --features standin,leaves --target-dir target/standin || exit 2
tool=target/standin/release/compare
bad=0

want() {
    fault=$1
    status=$2
    shift 2
    STANDIN_FAULT=$fault $tool "$@" >target/standin/selftest.log 2>&1
    got=$?
    if [ $got -eq "$status" ]; then
        echo "fault '$fault', $*: status $got, as wanted"
    else
        echo "fault '$fault', $*: status $got, wanted $status"
        bad=1
    fi
}

for fault in bit unused row surplus zero refused place depth spare; do
    want $fault 1 fuzz --count 20000 --part
done
for fault in bit zero early refused place depth spare surplus; do
    want $fault 1 limits --quick
done
want content 1 blind --count 20000
want bit 1 figures
want negative 0 fuzz --count 20000 --part
want leaf 1 leaves --count 20000
want "" 0 leaves --count 20000
want "" 0 figures
want "" 0 limits --quick
want "" 0 fuzz --count 100000
want "" 0 blind --count 20000
rm -rf failures
exit $bad
