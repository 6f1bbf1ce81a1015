#!/usr/bin/env bash
# Tries the exit statuses, messages and boundaries of the built program margin_call.
# Usage: scripts/margin_call.sh [PROGRAM]     (default: crates/margin_call/out/margin_call)
# Prints a line for each failed case and ends 'N passed, M failed'.
set -u
root=$(cd "$(dirname "$0")/.." && pwd)
program=${1:-$root/crates/margin_call/out/margin_call}
rpf=$root/samples/worked_day.csv
settings=$root/samples/worked_day_settings.csv
journal=$root/samples/worked_day_journal.csv
. "$root/scripts/trials.sh"

# not_done NAME WORD ARGUMENT..: status 1, nothing on standard output, and the word in the message.
not_done() {
    local name=$1 word=$2 ok=no
    shift 2
    run "$@"
    if [ "$status" = 1 ] && [ ! -s "$folder/stdout" ] && grep -qF -- "$word" "$folder/stderr"; then ok=yes; fi
    answer "$name" "$ok"
}

# ends NAME STATUS LINE ARGUMENT..: the status, and the last line on standard output.
ends() {
    local name=$1 wanted=$2 line=$3 ok=no
    shift 3
    run "$@"
    if [ "$status" = "$wanted" ] && [ "$(tail -n 1 "$folder/stdout")" = "$line" ]; then ok=yes; fi
    answer "$name" "$ok"
}

# passes NAME ARGUMENT..: status 0, and the line of the total.
passes() {
    local name=$1 ok=no
    shift
    run "$@"
    if [ "$status" = 0 ] && grep -q '^total,' "$folder/stdout"; then ok=yes; fi
    answer "$name" "$ok"
}

# with LINE TEXT: the settings with that line replaced, in $folder/settings.csv.
with() {
    awk -v n="$1" -v text="$2" 'NR == n { print text; next } { print }' "$settings" >"$folder/settings.csv"
}

# calls TEXT: a journal of these lines, in $folder/journal.csv.
calls() {
    printf "$1" >"$folder/journal.csv"
}

file_day=(--csv --rpf "$rpf")
usual=("${file_day[@]}" --settings "$settings" "$journal")

# Wrong usage.
not_done "no argument" "neither --rpf nor --fallback"
not_done "both sources" "both" "${file_day[@]}" --fallback 0.06 --settings "$settings" "$journal"
not_done "no settings" "--settings" "${file_day[@]}" "$journal"
not_done "no journal" "journal" "${file_day[@]}" --settings "$settings"
not_done "an unknown option" "--cvs" --cvs "${usual[@]}"
not_done "--csv twice" "--csv" --csv "${usual[@]}"
not_done "--settings twice" "--settings" "${usual[@]}" --settings "$settings"
not_done "an option without a value" "--places" "${usual[@]}" --places
not_done "places that are no digits" "--places" "${usual[@]}" --places -1
not_done "holdings that are no digits" "--holdings" "${usual[@]}" --holdings 1x
not_done "a rate of five places" "--fallback" --csv --fallback 0.06001 --settings "$settings" "$journal"
not_done "a rate that is no decimal" "--fallback" --csv --fallback .06 --settings "$settings" "$journal"
not_done "a file that is not there" "nowhere" --csv --rpf "$folder/nowhere" --settings "$settings" "$journal"
not_done "a journal that is not there" "nowhere" "${file_day[@]}" --settings "$settings" "$folder/nowhere"

# The day worked out.
run "${usual[@]}" --trace
ok=no
[ "$status" = 0 ] && cmp -s "$folder/stdout" "$root/crates/margin_call/stdout" && ok=yes
answer "the worked day" "$ok"
sed 's/$/\r/' "$settings" >"$folder/settings.csv"
sed 's/$/\r/' "$journal" >"$folder/journal.csv"
run "${file_day[@]}" --settings "$folder/settings.csv" "$folder/journal.csv" --trace
ok=no
[ "$status" = 0 ] && cmp -s "$folder/stdout" "$root/crates/margin_call/stdout" && ok=yes
answer "lines that end in CR LF" "$ok"
head -c -1 "$settings" >"$folder/settings.csv"
passes "settings without a last line end" "${file_day[@]}" --settings "$folder/settings.csv" "$journal"
: >"$folder/journal.csv"
passes "an empty journal" "${file_day[@]}" --settings "$settings" "$folder/journal.csv"
run "${usual[@]}" "$journal" --trace
ok=no
[ "$(grep -c 'answer,2,[0-9]*,refused,2[45]' "$folder/stdout")" = 7 ] && ok=yes
answer "a journal synced again: every repeat is refused" "$ok"

# The form of settings and journals.
form() {
    not_done "settings: $1" "line $2" "${file_day[@]}" --settings "$folder/settings.csv" "$journal"
}
with 1 "Multiplier,1.001"; form "a third place" 1
with 1 "Multiplier,1.000"; passes "settings: a third place of 0" "${file_day[@]}" --settings "$folder/settings.csv" "$journal"
with 3 "Floor_Rate,0.02501"; form "a fifth place" 3
with 2 "Credit,1000.0"; form "a point in whole dollars" 2
with 2 "credit,1000"; form "another name" 2
with 2 "Credit"; form "a missing cell" 2
with 2 "Credit,1000,"; form "an extra cell" 2
with 2 "Credit,0000000000000000001"; form "nineteen digits" 2
with 2 "Credit,000000000000001000"; passes "settings: eighteen digits" "${file_day[@]}" --settings "$folder/settings.csv" "$journal"
with 2 ""; form "an empty line" 2
with 9 "IPO,"; form "an empty IPO stock" 9
with 9 "IPO,1,2,3,4,5,6,7,8,9,10,11,12,13,14,15,16,17"; form "a seventeenth IPO stock" 9
with 9 "IPO,1,2,3,4,5,6,7,8,9,10,11,12,13,14,15,16"; passes "settings: sixteen IPO stocks" "${file_day[@]}" --settings "$folder/settings.csv" "$journal"
head -8 "$settings" >"$folder/settings.csv"; form "a missing line" 9
(cat "$settings"; echo "More,1") >"$folder/settings.csv"; form "a line too many" 10
not_a_call() {
    calls "$2"
    not_done "journal: $1" "line $3" "${file_day[@]}" --trace --settings "$settings" "$journal" "$folder/journal.csv"
}
not_a_call "an empty line" 'cancel,1\n\n' 2
not_a_call "another word" 'Post,1,0,11,1,1,1\n' 1
not_a_call "a missing cell" 'post,1,0,11,1,1\n' 1
not_a_call "an extra cell" 'cancel,1,\n' 1
not_a_call "nineteen digits" 'cancel,1000000000000000000\n' 1

# Settings at their ends, and one beyond.
setting() {
    with "$1" "$2,$3"; passes "$2 of $3" "${file_day[@]}" --settings "$folder/settings.csv" "$journal"
    with "$1" "$2,$4"; ends "$2 of $4" 1 "refused,12" "${file_day[@]}" --settings "$folder/settings.csv" "$journal"
}
setting 1 Multiplier 1 0.99
setting 1 Multiplier 4.00 4.01
setting 1 Multiplier 2.5 -1
setting 1 Multiplier 1 999.9
setting 2 Credit 1000000000 1000000001
setting 2 Credit 0 -1
setting 3 Floor_Rate 1 1.0001
setting 3 Floor_Rate -0 -0.0001
for line in 4 5 6 7 8; do
    name=$(sed -n "${line}s/,.*//p" "$settings")
    setting "$line" "$name" 1000000000000 1000000000001
    setting "$line" "$name" 0 -999999999999999999
done
setting 9 IPO 99999 100000
setting 9 IPO 0 -1

# The rate, the table and the list.
for rate in 0.06 0.0600 1 1.0000; do
    calls 'post,1,0,11,1,1,1\n'
    passes "a rate of $rate" --csv --fallback "$rate" --settings "$settings" "$folder/journal.csv"
done
for rate in 0.0599 1.0001 0 -0.06 2 9999; do
    ends "a rate of $rate" 1 "refused,9" --csv --fallback "$rate" --settings "$settings" "$journal"
done
for places in 0 4097 007000 99999999999999999999999999; do
    ends "$places places" 1 "refused,11" "${usual[@]}" --trace --places "$places"
done
passes "4,096 places" "${usual[@]}" --places 4096
passes "1 place" "${usual[@]}" --places 0001
passes "a list of 64" "${usual[@]}" --holdings 64
passes "a list of 0" "${usual[@]}" --holdings 0
for holdings in 65 99999999999999999999999999; do
    ends "a list of $holdings" 1 "refused,30" "${usual[@]}" --trace --holdings "$holdings"
done

# Each question of a post and a cancel, at its ends.
said() {
    calls "$2"
    run "${file_day[@]}" --trace --settings "$settings" "$folder/journal.csv" --places "${4:-9}"
    local ok=no
    [ "$(grep '^answer,' "$folder/stdout" | tail -n 1 | cut -d, -f4-)" = "$3" ] && ok=yes
    answer "$1" "$ok"
}
said "number 1" 'post,1,0,11,0,0,0\n' ok,1
said "number 999,999,999" 'post,999999999,0,11,0,0,0\n' ok,1
said "number 0" 'post,0,4,0,0,0,0\n' refused,21
said "number 1,000,000,000" 'cancel,1000000000\n' refused,21
said "number 10^17" 'cancel,100000000000000000\n' refused,21
said "kind 4" 'post,1,4,11,99999999999,0,0\n' refused,22
said "kind -1" 'post,1,-1,11,0,0,0\n' refused,22
said "stock 0" 'post,1,0,0,0,0,0\n' refused,22
said "stock 99,999" 'post,1,0,99999,0,0,0\n' ok,1
said "stock 100,000" 'post,1,0,100000,0,0,0\n' refused,22
said "sizes of 20,000,000,000" 'post,1,0,11,20000000000,-20000000000,20000000000\n' ok,1
said "a quantity beyond" 'post,1,0,11,20000000001,0,0\n' refused,23
said "a contract value beyond" 'post,1,0,11,0,-20000000001,0\n' refused,23
said "a market value beyond" 'post,1,0,11,0,0,20000000001\n' refused,23
said "a post after its cancel" 'cancel,7\npost,7,0,11,0,0,0\n' refused,24
said "a cancel after its cancel" 'cancel,7\ncancel,7\n' refused,24
said "a post after its post" 'post,7,0,11,0,0,0\npost,7,0,22,1,1,1\n' refused,25
said "no place for a post" 'cancel,1\npost,2,0,11,0,0,0\n' refused,26 1
said "no place for an unknown cancel" 'post,1,0,11,0,0,0\ncancel,2\n' refused,26 1
said "a live entry's cancel needs no place" 'post,1,0,11,0,0,0\ncancel,1\n' ok,0 1

# The assessment's questions.
calls 'post,1,0,5,0,0,0\npost,2,2,11,0,0,0\n'
ends "a stock without a tier goes first" 1 "refused,31,0,5" "${file_day[@]}" --settings "$settings" "$folder/journal.csv"
calls 'post,1,3,11,0,0,0\npost,2,1,99,0,0,0\npost,3,1,45,0,0,0\n'
ends "the lowest kind, then the lowest stock" 1 "refused,31,1,45" "${file_day[@]}" --settings "$settings" "$folder/journal.csv"
calls 'post,1,0,33,0,0,7500000000\npost,2,0,33,0,0,5\n'
ends "margins beyond 900,000,000" 1 "refused,33" "${file_day[@]}" --settings "$settings" "$folder/journal.csv"
calls 'post,1,0,33,0,0,7500000000\n'
passes "margins of 900,000,000" "${file_day[@]}" --settings "$settings" "$folder/journal.csv"
calls 'post,1,1,44,0,0,20000000000\n'
passes "gross market value of 20,000,000,000" "${file_day[@]}" --settings "$settings" "$folder/journal.csv"
calls 'post,1,1,44,0,0,20000000000\npost,2,0,33,0,0,-1\n'
ends "gross market value beyond" 1 "refused,32" "${file_day[@]}" --settings "$settings" "$folder/journal.csv"
: >"$folder/empty.csv"
ends "a parameter file that is refused" 1 "refused,1,0" --csv --trace --rpf "$folder/empty.csv" --settings "$settings" "$journal"

# Journals are applied in the order given, each one: a post that comes late does not revive its entry.
printf 'post,9,0,11,1,100,100\n' >"$folder/post.csv"
printf 'cancel,9\n' >"$folder/cancel.csv"
# traced NAME LINES JOURNAL..: the first lines on standard output, one for each journal.
traced() {
    local name=$1 lines=$2 ok=no
    shift 2
    run "${file_day[@]}" --trace --settings "$settings" "$@"
    if [ "$status" = 0 ] && [ "$(head -n $# "$folder/stdout")" = "$lines" ]; then ok=yes; fi
    answer "$name" "$ok"
}
traced "a post and then its cancel" $'answer,1,1,ok,1\nanswer,2,1,ok,0' "$folder/post.csv" "$folder/cancel.csv"
traced "a cancel and then its post" $'answer,1,1,ok,0\nanswer,2,1,refused,24' "$folder/cancel.csv" "$folder/post.csv"
traced "a journal synced again" $'answer,1,1,ok,1\nanswer,2,1,ok,0\nanswer,3,1,refused,24' "$folder/post.csv" "$folder/cancel.csv" "$folder/post.csv"

echo "$passed passed, $failed failed"
[ "$failed" = 0 ]
