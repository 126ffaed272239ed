#!/bin/sh
# How long `zeus run` takes to read a script, by its size. Writes scripts of about 1, 2 and 4 megabytes with many
# transactions and steps on 256 objects, and with a fault in the last line alone, so that the program reads them whole
# and runs none; prints the least time of five runs and the time per megabyte. Not part of the gate.
set -eu
top=$(CDPATH='' cd "$(dirname "$0")/.." && pwd)
folder=$(mktemp -d)
trap 'rm -rf "$folder"' EXIT

# A script of so many transactions and steps.
write_script() {
    awk -v txs="$1" -v steps="$2" 'BEGIN {
        print "zeus 1"; print "nodes 8"; print "slots 8"; print "directory 0 3 5"
        for (x = 0; x < 256; x++) printf "object object_%d %d %d %d\n", x, x * 7, x % 7, 7
        for (t = 0; t < txs; t++) {
            line = sprintf("tx %d %d", t % 8, int(t / 8) % 8)
            for (o = 0; o < 16; o++) {
                name = "object_" (t * 5 + o % 8) % 256
                line = line (o ? " ;" : "") (o % 3 == 0 ? " get " name : " add " name " " t * 31 + o)
            }
            print line
        }
        print "run"
        for (s = 0; s < steps; s++) {
            if (s % 3 == 0) print "try", s % 8, int(s / 8) % 8
            else print "deliver", s % 8, (s + 1) % 8, s
        }
        print "ende"
    }'
}

# The shell script builds the program where that is needed; the program itself is timed.
"$top/zeus" run </dev/null >/dev/null || true
program=$top/crates/zeus/out/zeus
for part in 1 2 4; do
    write_script $((part * 2000)) $((part * 12000)) >"$folder/script"
    size=$(wc -c <"$folder/script")
    best=
    for _ in 1 2 3 4 5; do
        begun=$(date +%s%N)
        answer=$("$program" run <"$folder/script" || true)
        took=$((($(date +%s%N) - begun) / 1000))
        if [ -z "$best" ] || [ "$took" -lt "$best" ]; then best=$took; fi
    done
    awk -v size="$size" -v best="$best" -v answer="$answer" 'BEGIN {
        printf "%8d bytes: %7.1f ms, %6.1f ms per megabyte (%s)\n", size, best / 1000, best / 1000 / (size / 1000000), answer
    }'
done
