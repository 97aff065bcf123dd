#!/usr/bin/env bash
# Shows what each of the four works says of a flow: on a small capture from home, whole, and on
# generated traffic, of which the last lines are enough.
set -euo pipefail
cd "$(dirname "$0")/.."

for work in count flags gaps order; do
    echo "== $work, home capture"
    ./rsspp report --work "$work" < examples/home.pcap
    echo "== $work, 1000 generated packets"
    ./rsspp make 1000 7 | ./rsspp report --work "$work" | tail -n 4
done
