#!/bin/sh
# Tries `./zeus` as a new user would: words, inputs and outputs of all kinds, each with the status and the bytes that
# are due, and one line on standard error exactly if the status is not 0. Not part of the gate. Prints each case that
# fails, `N passed, M failed`, and how long `./zeus` takes to start. The exit status is 1 if a case fails.
#
#   bench/first_hour.sh [ZEUS]
#
# ZEUS is the script to be tried, if it is not the one of this checkout. It builds the program first if that is needed.
set -u
LC_ALL=C
export LC_ALL
top=$(CDPATH='' cd "$(dirname "$0")/.." && pwd)
zeus=$(readlink -f "${1:-$top/zeus}")
home=$(dirname "$zeus")
folder=$(mktemp -d)
trap 'rm -rf "$folder"' EXIT
passed=0
failed=0

# Runs `zeus` with these words. The input is standard input; the rest is kept for `due`.
go() {
    "$zeus" "$@" >"$folder/out" 2>"$folder/err"
    echo $? >"$folder/status"
}

fail() {
    failed=$((failed + 1))
    echo "FAILED: $name: $1"
}

# due NAME STATUS TEXT [WORDS]: what the last run has to have answered. TEXT is the output without the end of its last
# line, `@NAME` that of a file, and `*` any output. WORDS have to stand in the line on standard error.
due() {
    name=$1
    got=$(cat "$folder/status")
    lines=1
    [ "$2" = 0 ] && lines=0
    case $3 in
    '*') cp "$folder/out" "$folder/due" ;;
    '') : >"$folder/due" ;;
    @*) cp "$folder/${3#@}" "$folder/due" ;;
    *) printf '%s\n' "$3" >"$folder/due" ;;
    esac
    if [ "$got" != "$2" ]; then
        fail "status $got, and not $2"
    elif ! cmp -s "$folder/out" "$folder/due"; then
        fail "other output: $(head -c 200 "$folder/out" | head -n 1)"
    elif [ "$(wc -l <"$folder/err")" != "$lines" ]; then
        fail "$(wc -l <"$folder/err") lines on standard error, and not $lines"
    elif ! grep -qF -e "${4-}" "$folder/err" && [ -n "${4-}" ]; then
        fail "standard error without '$4'"
    else
        passed=$((passed + 1))
    fi
}

# fault NAME EDIT TEXT [WORDS]: what the script two-nodes, edited by sed, has to be answered.
fault() {
    sed "$2" "$top/examples/two-nodes.zeus" >"$folder/in"
    go run <"$folder/in"
    due "$1" 3 "$3" "${4-}"
}

# A script of so many bytes, with one object and no step.
script_of() {
    awk -v size="$1" 'BEGIN {
        name = "abcdefghijklmnop"
        head = "zeus 1\nnodes 1\nslots 1\ndirectory 0\nobject " name " 0 0\n"
        printf "%s", head
        long = "tx 0 0"
        for (i = 0; i < 16; i++) long = long (i ? " ;" : "") " put " name " 18446744073709551615"
        for (left = size - length(head) - length("run\nend\n"); left > 1500; left -= length(long) + 1) print long
        # Lines of 30 to 49 bytes take up the rest.
        lines = int((left + 48) / 49)
        for (i = 0; i < lines; i++) {
            digits = int(left * (i + 1) / lines) - int(left * i / lines) - length("tx 0 0 put " name " \n")
            print "tx 0 0 put " name " " substr("11111111111111111111", 1, digits)
        }
        print "run"
        print "end"
    }'
}

# A script of so many transactions and steps.
counts_of() {
    awk -v txs="$1" -v steps="$2" 'BEGIN {
        print "zeus 1\nnodes 1\nslots 1\ndirectory 0\nobject x 0 0"
        for (i = 0; i < txs; i++) print "tx 0 0 get x"
        print "run"
        for (i = 0; i < steps; i++) print "try 0 0"
        print "end"
    }'
}

one=$top/examples/one-node.zeus
two=$top/examples/two-nodes.zeus
printf '%s\n' 'report 1' '0 begin 0 = begun' '1 try 0 0 = committed 0' '* 0 ok 8' '! 0' 'history 0' 'tx 0 acked' \
    'object x 0 0' 'copy x 0 valid 1 8' end >"$folder/one"
go run <"$one" # builds the program if that is needed

# ---- words
go run <"$one"
due 'a script from a file' 0 @one
for words in '' walk 'run x' Run RUN 'run run' help -h -- '-- run' 'run --help' '--help run' '--version run' storm 'storm 1' 'storm 9 1 1 1 0 0 0 7' \
    'lease x' 'audit x' bank live; do
    go $words <"$one"
    due "the words '$words'" 2 usage 'no such words'
done
go '' <"$one"
due 'an empty word' 2 usage
go 'run ' <"$one"
due 'a word with a space' 2 usage
go "$(printf '\377')" <"$one"
due 'a word that is no text' 2 usage
go run "$(printf '\303')" <"$one"
due 'a second word that is no text' 2 usage
go "$(head -c 100000 /dev/zero | tr '\0' a)" <"$one"
due 'a word of 100,000 bytes' 2 usage
go $(seq 5000) <"$one"
due '5,000 words' 2 usage
go walk <&-
due 'other words without an input' 2 usage
go --help
due '--help' 0 '*'
name='--help has statuses and an example'
if grep -q 'Exit status' "$folder/out" && grep -q 'run <' "$folder/out"; then passed=$((passed + 1)); else fail 'no'; fi
go --version
due '--version' 0 '*'
name='--version has the kit'
if grep -qF "$(sed -n 's/^rattle-kit/&/p' "$top/README.md" | head -n 1)" "$folder/out"; then passed=$((passed + 1)); else fail 'no'; fi

# ---- examples: checksums of their reports
while read -r sum size example; do
    go run <"$top/examples/$example.zeus"
    name="the example $example"
    if [ "$(cat "$folder/status")" = 0 ] && [ "$(cksum <"$folder/out")" = "$sum $size" ]; then passed=$((passed + 1)); else fail "another report"; fi
done <<'SUMS'
1563871250 419 late-validation
2274395249 121 one-node
424073169 461 ownership-moves
795635157 684 reader-comes-and-goes
170380894 388 repeated-packets
4008495853 457 second-entry-first
308593232 790 survivor-replays
4258522988 353 texts-as-values
3014724951 1066 two-drivers
1642154986 348 two-nodes
SUMS

# ---- the other commands
go lease <"$top/examples/lease-held.leases"
name='a lease that holds'
if [ "$(cat "$folder/status")" = 0 ] && grep -qx '7 view 1 = installed 2' "$folder/out"; then passed=$((passed + 1)); else fail 'no'; fi
go lease <"$top/examples/lease-skewed.leases"
name='a clock that is skewed'
if [ "$(cat "$folder/status")" = 0 ] && grep -qx '3 pass 10 10 12 = skewed 2 0' "$folder/out"; then passed=$((passed + 1)); else fail 'no'; fi
go lease <"$one"
due 'a script of a run for leases' 3 'script 1 word' 'does not fit'
printf '%s\n' 'storm 1 1 1 1 0 0 0 7' 'steps 0' 'acked 0 failed 0 refused 0 stopped 0 unfinished 1' 'epoch 1 lost 0' \
    'sum 100' end >"$folder/storm"
go storm 1 1 1 1 0 0 0 7 <&-
due 'a storm that is not finished' 1 @storm 'not closed'
sed 's/ 1 0 0 0 7$/ 0 0 0 0 7/; s/unfinished 1/unfinished 0/' "$folder/storm" >"$folder/calm"
go storm 1 1 1 0 0 0 0 7 <&-
due 'a storm without a transaction' 0 @calm
cat "$one" "$folder/one" >"$folder/both"
go audit <"$folder/both"
due 'an audit of a report' 0 'audit ok'
sed 's/ok 8/ok 9/' "$folder/both" >"$folder/in"
go audit <"$folder/in"
due 'an audit of another reply' 7 'audit 4 reply' 'breaks the rule'

# ---- scripts with a fault
fault 'lines that end with CR and LF' 's/$/\r/' 'script 1 word' 'CR and LF'
fault 'one line that ends with CR and LF' '6s/$/\r/' 'script 6 number' 'CR and LF'
fault 'a byte order mark' '1s/^/\xef\xbb\xbf/' 'script 1 word' 'byte order mark'
fault 'an empty line in front' '1s/^/\n/' 'script 1 word' 'line 1, "": word 1, "", does not fit; wanted: zeus'
fault 'an empty line in between' '4s/$/\n/' 'script 5 word'
fault 'an empty line behind' '$s/$/\n/' 'script 17 extra' "nothing may follow the line 'end'"
fault 'a comment' '5s/^/# /' 'script 5 word' '"# object x 5 0 1"'
fault 'a script twice' '$r '"$two" 'script 17 extra' '"zeus 1"'
fault 'no line end' '$d' 'script 16 missing' 'the input ends here; wanted: end begin try'
fault 'a tab for a space' '2s/ /\t/' 'script 2 word'
fault 'two spaces' '2s/ /  /' 'script 2 number' 'word 2, "", is no number'
fault 'a space at the end' '2s/$/ /' 'script 2 word'
fault 'a space in front' '2s/^/ /' 'script 2 word'
fault 'great letters' '2s/.*/NODES 2/' 'script 2 word'
fault 'version 3' '1s/1/3/' 'script 1 word'
fault 'no version' '1s/ 1//' 'script 1 word' 'a word is missing at its end; wanted: zeus 1'
fault 'no nodes' '2s/2/0/' 'script 2 range' 'word 2, "0", is out of its range'
fault 'nine nodes' '2s/2/9/' 'script 2 range'
fault 'a sign' '2s/2/+2/' 'script 2 number'
fault 'a leading zero' '2s/2/02/' 'script 2 number'
fault 'a fraction' '2s/2/2.0/' 'script 2 number'
fault 'no slots' '3s/1/0/' 'script 3 range'
fault 'a line left out' '3d' 'script 3 word' '"directory 0"'
fault 'a directory node that there is not' '4s/0/2/' 'script 4 range'
fault 'a directory node twice' '4s/0/0 0/' 'script 4 twice'
fault 'an empty directory' '4s/ 0//' 'script 4 word'
fault 'a degree of none' '4s/$/\ndegree 0/' 'script 5 range'
fault 'a name with a dash' '5s/x/x-y/' 'script 5 name' 'word 2, "x-y", is no name: a letter'
fault 'a name that begins with a digit' '5s/x/1x/' 'script 5 name'
fault 'a name of 17 letters' '5s/x/abcdefghijklmnopq/' 'script 5 name'
fault 'a name declared twice' '5s/.*/&\n&/' 'script 6 twice'
fault 'an owner that there is not' '5s/5 0 1/5 2/' 'script 5 range'
fault 'the owner among the replicas' '5s/5 0 1/5 0 0/' 'script 5 twice'
fault 'a value of 2^64' '5s/5/18446744073709551616/' 'script 5 number'
fault 'a text in version 1' "5s/5/'a/" 'script 5 number'
fault 'an object that is not declared' '6s/ x/ y/' 'script 6 unknown' 'word 5, "y", is the name of no object'
fault 'an operation that there is not' '6s/add/sub/' 'script 6 word' 'word 4, "sub", does not fit; wanted: tx NODE SLOT'
fault 'no operation' '6s/ add x 3//' 'script 6 word'
fault 'a semicolon without a space' '6s/$/; get x/' 'script 6 number'
fault 'behind itself' '6s/0 0/0 0 after 0/' 'script 6 range'
fault 'a step that there is not' '10s/try/tries/' 'script 10 word' 'word 1, "tries", does not fit; wanted: end begin try'
fault 'a transaction that there is not' '9s/0/2/' 'script 9 range'
fault 'an epoch of none' '9s/.*/install 0 0/' 'script 9 range'
fault 'a text without bytes' "1s/1/2/;5s/5/'/" 'script 5 text' 'has no text of 1 to 32 bytes'
sed "6s/\$/$(printf ' ; get x%.0s' $(seq 16))/" "$two" >"$folder/in"
go run <"$folder/in"
due 'seventeen operations' 3 'script 6 long' 'is more than there may be'
head -c -1 "$two" >"$folder/in"
go run <"$folder/in"
due 'a last line that does not end' 3 'script 16 line end' 'no line feed'
go run </dev/null
due 'an empty input' 3 'script 1 missing'
head -c 5000 /dev/zero >"$folder/in"
go run <"$folder/in"
due '5,000 zeros' 3 'script 1 line end'
iconv -f UTF-8 -t UTF-16 "$two" >"$folder/in"
go run <"$folder/in"
due 'UTF-16' 3 'script 1 word'
printf '%s\n' '$(touch x); `echo`; %s \n' >"$folder/in"
go run <"$folder/in"
due 'a line of signs that a shell reads' 3 'script 1 word' '"$(touch x); `echo`; %s \n"'
counts_of 10001 0 >"$folder/in"
go run <"$folder/in"
due '10,001 transactions' 3 'script 10006 long'
counts_of 1 50001 >"$folder/in"
go run <"$folder/in"
due '50,001 steps' 3 'script 50008 long'
head -c 4194304 /dev/zero >"$folder/in"
go run <"$folder/in"
due '4,194,304 zeros' 3 'script 1 line end'

# ---- sizes
counts_of 10000 50000 >"$folder/in"
go run <"$folder/in"
due '10,000 transactions and 50,000 steps' 0 '*'
name='its report has a line for each'
if [ "$(grep -c '^tx' "$folder/out") $(grep -c '= nothing$' "$folder/out")" = '10000 50000' ]; then passed=$((passed + 1)); else fail 'no'; fi
script_of 4194304 >"$folder/in"
go run <"$folder/in"
due '4,194,304 bytes' 0 '*'
script_of 4194305 >"$folder/in"
go run <"$folder/in"
due '4,194,305 bytes' 3 'script 0 size' '4,194,304 bytes'
go run </dev/zero
due 'an endless input' 3 'script 0 size'
yes 'zeus 1' | go run
due 'an endless pipe' 3 'script 0 size' 'the input is no script'

# ---- inputs
cat "$one" | go run
due 'a pipe' 0 @one
(head -c 20 "$one"; sleep 0.3; tail -c +21 "$one") | go run
due 'a slow pipe' 0 @one
while read -r line; do echo "$line"; done <"$one" | go run
due 'a pipe, line by line' 0 @one
dd if="$one" bs=1 2>/dev/null | go run
due 'a pipe, byte by byte' 0 @one
sed 2s/1/9/ "$one" | go run
due 'a fault in a pipe' 3 'script 2 range' 'the line on standard output says where and why'
(sleep 0.3; cat /dev/null) | go run
due 'a pipe that ends late and empty' 3 'script 1 missing'
mkfifo "$folder/fifo"
cat "$one" >"$folder/fifo" &
go run <"$folder/fifo"
due 'a named pipe' 0 @one
go run <<END
$(cat "$one")
END
due 'a script in the shell' 0 @one
(echo 'a first line'; cat "$one") >"$folder/in"
{ read -r line && go run; } <"$folder/in"
due 'the rest of a file' 0 @one
(echo 'a first line'; sed 5s/x/-/ "$one") >"$folder/in"
{ read -r line && go run; } <"$folder/in"
due 'a fault in the rest of a file' 3 'script 5 name' '"object - 5 0"'
go run <>"$one"
due 'a file that is open for both' 0 @one
cp "$one" "$folder/gone"
{ rm "$folder/gone"; go run; } <"$folder/gone"
due 'a file that is removed' 0 @one
go run </
due 'a folder' 4 '' 'standard input failed'
go run <&-
due 'a closed input' 4 '' 'standard input failed'
go run 0>"$folder/in"
due 'an input that is open for writing' 4 '' 'standard input failed'

# ---- outputs
go_to() {
    "$zeus" run 2>"$folder/err"
    echo $? >"$folder/status"
}
: >"$folder/out"
go_to <"$one" >/dev/full
due 'a full device' 5 '' 'standard output failed'
go_to <"$one" >&-
due 'a closed output' 5 '' 'standard output failed'
go_to <"$one" 1<"$one"
due 'an output that is open for reading' 5 '' 'standard output failed'
sed 2s/1/9/ "$one" >"$folder/in"
go_to <"$folder/in" >/dev/full
due 'a fault on a full device' 5 ''
"$zeus" walk <"$one" >/dev/full 2>"$folder/err"
echo $? >"$folder/status"
due 'other words on a full device' 5 ''
counts_of 1000 50000 >"$folder/in"
go_to <"$folder/in" | true
due 'a reader that has gone' 5 ''
go_to <"$one" | (sleep 0.3; cat) >"$folder/out"
due 'a slow reader' 0 @one
cp "$folder/one" "$folder/out"
go_to <"$one" >>"$folder/out"
cat "$folder/one" "$folder/one" >"$folder/twice"
due 'an output behind another' 0 @twice
go_to <"$one" 1<>"$folder/out"
due 'an output over another' 0 @twice
"$zeus" run <"$one" >"$folder/out" 2>&1
echo $? >"$folder/status"
: >"$folder/err"
due 'one file for both outputs' 0 @one
sed 2s/1/9/ "$one" >"$folder/in"
"$zeus" run <"$folder/in" >"$folder/out" 2>&-
echo $? >"$folder/status"
echo >"$folder/err"
due 'no standard error' 3 'script 2 range'
"$zeus" run <&- >&- 2>&-
echo $? >"$folder/status"
: >"$folder/out"
due 'all closed' 4 ''

# ---- places
cd / || exit 1
go run <"$one"
due 'from another folder' 0 @one
cd "$home" || exit 1
sh zeus run <"$one" >"$folder/out" 2>"$folder/err"
echo $? >"$folder/status"
due 'by sh' 0 @one
ln -s "$zeus" "$folder/zeus"
"$folder/zeus" run <"$one" >"$folder/out" 2>"$folder/err"
echo $? >"$folder/status"
due 'by a link' 0 @one
ln -s "$zeus" "$folder/another"
"$folder/another" run <"$one" >"$folder/out" 2>"$folder/err"
echo $? >"$folder/status"
due 'by a link of another name' 0 @one
env -i "$zeus" run <"$one" >"$folder/out" 2>"$folder/err"
echo $? >"$folder/status"
due 'without an environment' 0 @one
PATH=/usr/bin:/bin "$zeus" run <"$one" >"$folder/out" 2>"$folder/err"
echo $? >"$folder/status"
due "without the kit's command" 0 @one
"$home/crates/zeus/out/zeus" run <"$two" >"$folder/two"
go run <"$two"
due 'as the program itself' 0 @two
for turn in 1 2 3 4; do "$zeus" run <"$two" >"$folder/side$turn" 2>/dev/null & done
wait
cat "$folder"/side? >"$folder/out"
cat "$folder/two" "$folder/two" "$folder/two" "$folder/two" >"$folder/four"
echo 0 >"$folder/status"
: >"$folder/err"
due 'four side by side' 0 @four

# ---- copies of the checkout, with the program
copy="$folder/a copy"
mkdir "$copy"
(cd "$home" && tar -cf - --exclude=.git --exclude=proofs --exclude=must-fail crates.txt HANDLES zeus README.md $(find crates -name out -prune -o -type f -print) \
    crates/zeus/out/zeus crates/zeus_explain/out/zeus_explain crates/zeus/out/made-of) | (cd "$copy" && tar -xmf -)
zeus=$copy/zeus
PATH=/usr/bin:/bin go run <"$one"
due 'a copied checkout is not stale' 0 @one
touch "$copy"/crates/*/src/*.rt
PATH=/usr/bin:/bin go run <"$one"
due 'files with another time are not stale' 0 @one
echo '// more' >>"$copy/crates/zeus_base/src/lib.rt"
PATH=/usr/bin:/bin go run <"$one"
due 'a changed source is, and without the kit nothing is run' 125 '' "'rt'"
PATH=/usr/bin:/bin go --help
due '--help without a program' 0 '*'
PATH=/usr/bin:/bin go --version
due '--version without a program' 0 '*'

# ---- how long it takes to start
zeus=$home/zeus
start() {
    begun=$(date +%s%N)
    for turn in 1 2 3 4 5 6 7 8 9 10; do "$@" run <"$one" >/dev/null; done
    echo "$((($(date +%s%N) - begun) / 100000))" | sed 's/..$/.&/'
}
echo "a start takes $(start "$zeus") ms, of the program itself $(start "$home/crates/zeus/out/zeus") ms"
echo "$passed passed, $failed failed"
[ "$failed" = 0 ]
