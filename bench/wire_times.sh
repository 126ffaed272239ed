#!/bin/sh
# Processor time a packet of decode and encode_into of zeus_wire, beside the plain codec of wire_plain.rs, on 20,000
# packets of version 2 of all kinds, a third of them entries; ROUNDS times each (200 if none is given). Prints
# nanoseconds. The program that calls encode_into also asks `fits` of each packet, which is timed by itself last. Not
# part of the gate.
set -eu
top=$(CDPATH='' cd "$(dirname "$0")/.." && pwd)
rounds=${1:-200}
folder=$(mktemp -d)
trap 'rm -rf "$folder"' EXIT
rustc -O -o "$folder/plain" "$top/bench/wire_plain.rs"
"$top/bench/wire_probe.sh" "$folder/probe"
"$folder/plain" packets 5 20000 >"$folder/cases"
echo "bytes a packet: $(($(wc -c <"$folder/cases") / 20000 - 3))"
(cd "$folder/probe/crates/wire_probe" && rt run -- decode 1 <"$folder/cases" >"$folder/log" 2>&1) || { tail -n 3 "$folder/log" >&2; exit 1; }
# Nanoseconds a packet of a task of a program, the least of three runs.
least() {
    best=
    for _ in 1 2 3; do
        spent=$({ bash -c "TIMEFORMAT=%U; time '$1' $2 $rounds <'$folder/cases' >/dev/null"; } 2>&1)
        best=$(echo "$spent $best" | awk -v n="$rounds" '{ ns = $1 * 1e9 / n / 20000; print ($2 == "" || ns < $2) ? ns : $2 }')
    done
    echo "$2 $(basename "$1"): $best ns a packet"
}
probe=$folder/probe/crates/wire_probe/out/wire_probe
for task in decode encode; do
    least "$probe" "$task"
    least "$folder/plain" "$task"
done
least "$probe" fits
