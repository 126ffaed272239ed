#!/bin/sh
# Decodes random bytes, and packets with one byte changed, by zeus_wire and by the plain codec of wire_plain.rs, and
# compares what each tells: the fields of the packet, or the fault and its place. COUNT cases of each sort (a million
# if none is given). Not part of the gate.
set -eu
top=$(CDPATH='' cd "$(dirname "$0")/.." && pwd)
count=${1:-1000000}
folder=$(mktemp -d)
trap 'rm -rf "$folder"' EXIT
rustc -O -o "$folder/plain" "$top/bench/wire_plain.rs"
"$top/bench/wire_probe.sh" "$folder/probe"
cd "$folder/probe/crates/wire_probe"
for sort in random injured; do
    "$folder/plain" "$sort" 20261201 "$count" >"$folder/cases"
    "$folder/plain" answer <"$folder/cases" >"$folder/plain.answers"
    rt try --seconds 600 -- answer <"$folder/cases" >"$folder/our.answers" 2>"$folder/log" || { tail -n 3 "$folder/log" >&2; exit 1; }
    if cmp "$folder/plain.answers" "$folder/our.answers"; then
        echo "$count $sort cases: no difference"
    else
        echo "$count $sort cases: a difference, in the block of 50 cases that the byte's place divided by 8 tells"
        exit 1
    fi
done
