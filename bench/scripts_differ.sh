#!/bin/sh
# Runs two programs on the same random scripts, and on the same scripts injured, and tells where the bytes that they
# write or their exit statuses differ. Not part of the gate.
#
#   bench/scripts_differ.sh OTHER COUNT [FLAG ..]
#
# OTHER is another program of the rules. With the word `run` it reads a script from standard input and prints what this
# program has to print; with the words `gen SEED FLAG ..` it prints a random script. Both programs get COUNT scripts, of
# seeds SEED, SEED + 1 and so on (SEED is 1 if it is not set), and each of them once more with one to three injuries: a line
# or a word that is gone, doubled, moved or another one, a byte that is another one, an end that is cut off or too long.
# PROGRAM names the program to be tried, if it is not the one that `./zeus` builds.
#
# The last line says how many scripts were tried and how many differ. Up to 20 of those that differ are kept in a folder,
# which is named, and the exit status is then 1.
set -eu
LC_ALL=C
export LC_ALL
if [ $# -lt 2 ]; then
    sed -n '2,/^set/{/^#/s/^# \{0,1\}//p;}' "$0" >&2
    exit 2
fi
top=$(CDPATH='' cd "$(dirname "$0")/.." && pwd)
other=$1
count=$2
shift 2
first=${SEED:-1}
if [ -z "${PROGRAM:-}" ]; then
    # The shell script builds the program if that is needed.
    "$top/zeus" run </dev/null >/dev/null || true
    PROGRAM=$top/crates/zeus/out/zeus
fi
folder=$(mktemp -d)
tried=0
differ=0

# An injured copy of a script, by the number of its seed.
injure() {
    awk -v seed="$1" '
    function pick(n) { return int(rand() * n) }
    function wreck(  i, j, k, n, w, words, text) {
        i = rand() < 0.6 && lines > 12 ? pick(12) + 1 : pick(lines) + 1
        j = pick(lines) + 1
        k = pick(8)
        n = split(line[i], words, " ")
        w = n ? pick(n) + 1 : 1
        if (k == 0) { text = line[i]; line[i] = line[j]; line[j] = text }
        else if (k == 1) line[i] = line[i] "\n" line[i]
        else if (k == 2) { for (; i < lines; i++) line[i] = line[i + 1]; if (lines > 1) lines-- }
        else if (k == 3) words[w] = odd[pick(odds) + 1]
        else if (k == 4) words[w] = words[w] " " odd[pick(odds) + 1]
        else if (k == 5) words[w] = words[w] " " words[w]
        else if (k == 6) { for (; w < n; w++) words[w] = words[w + 1]; if (n > 1) n-- }
        else {
            w = pick(length(line[i])) + 1
            line[i] = substr(line[i], 1, w - 1) sprintf("%c", pick(126) + 1) substr(line[i], w + 1)
        }
        if (k >= 3 && k <= 6) {
            text = words[1]
            for (w = 2; w <= n; w++) text = text " " words[w]
            line[i] = text
        }
    }
    BEGIN {
        srand(seed)
        quote = sprintf("%c", 39)
        odds = split("0 00 1 2 3 7 8 9 18446744073709551615 18446744073709551616 4294967295 4294967296 -1 +1 x y 4x _a a_ ; degree" \
            " same get put add need after object tx run end begin try view install deliver tick stop zeus abcdefghijklmnop" \
            " abcdefghijklmnopq", odd, " ")
        odd[++odds] = ""
        odd[++odds] = quote
        odd[++odds] = quote "a"
        odd[++odds] = quote quote
        odd[++odds] = quote "abcdefghijklmnopqrstuvwxyz012345"
        odd[++odds] = quote "abcdefghijklmnopqrstuvwxyz0123456"
    }
    { line[++lines] = $0 }
    END {
        for (turns = pick(3) + 1; turns > 0; turns--) wreck()
        for (i = 1; i < lines; i++) print line[i]
        end = pick(12)
        if (end == 0) printf "%s", line[lines]
        else if (end == 1) printf "%s\n\n", line[lines]
        else if (end == 2) printf "%s\nend\n", line[lines]
        else if (end == 3) printf "%s", substr(line[lines], 1, pick(length(line[lines]) + 1))
        else print line[lines]
    }'
}

# Runs both programs on a script, and keeps it if they differ.
compare() {
    one=0
    two=0
    "$PROGRAM" run <"$folder/script" >"$folder/one" || one=$?
    "$other" run <"$folder/script" >"$folder/two" || two=$?
    tried=$((tried + 1))
    if [ "$one" -ne "$two" ] || ! cmp -s "$folder/one" "$folder/two"; then
        differ=$((differ + 1))
        echo "$1: status $one and $two; $(head -n 1 "$folder/one") and $(head -n 1 "$folder/two")"
        if [ "$differ" -le 20 ]; then cp "$folder/script" "$folder/$1"; fi
    fi
}

seed=$first
while [ "$seed" -lt $((first + count)) ]; do
    "$other" gen "$seed" "$@" >"$folder/whole"
    cp "$folder/whole" "$folder/script"
    compare "script-$seed"
    injure "$seed" <"$folder/whole" >"$folder/script"
    compare "injured-$seed"
    seed=$((seed + 1))
done
rm -f "$folder/script" "$folder/whole" "$folder/one" "$folder/two"
echo "$tried scripts, $differ differ"
if [ "$differ" -gt 0 ]; then
    echo "kept in $folder"
    exit 1
fi
rmdir "$folder"
