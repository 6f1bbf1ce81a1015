#!/usr/bin/env bash
# Tries the exit statuses and messages of the built program check_file.
# Usage: scripts/exit_status.sh [PROGRAM]     (default: crates/check_file/out/check_file)
# Prints a line for each failed case and ends 'N passed, M failed'.
set -u
root=$(cd "$(dirname "$0")/.." && pwd)
program=${1:-$root/crates/check_file/out/check_file}
sample=$root/samples/rpf01.csv
worked_day=$root/samples/worked_day.csv
. "$root/scripts/trials.sh"

# not_done NAME ARGUMENT..: the job cannot be done: status 1, a message on standard error, nothing on standard output.
not_done() {
    local name=$1 ok=no
    shift
    run "$@"
    if [ "$status" = 1 ] && [ ! -s "$folder/stdout" ] && [ -s "$folder/stderr" ]; then ok=yes; fi
    answer "$name" "$ok"
}

# says NAME WORD: the message of the latest run has the word.
says() {
    local ok=no
    if grep -qiF -- "$2" "$folder/stderr"; then ok=yes; fi
    answer "$1" "$ok"
}

# prints NAME STATUS TEXT ARGUMENT..: exactly the text on standard output, and the status.
prints() {
    local name=$1 wanted=$2 text=$3 ok=no
    shift 3
    run "$@"
    printf '%s\n' "$text" >"$folder/wanted"
    if [ "$status" = "$wanted" ] && cmp -s "$folder/stdout" "$folder/wanted"; then ok=yes; fi
    answer "$name" "$ok"
}

# reports NAME STATUS WORDS ARGUMENT..: the words somewhere on standard output, and the status.
reports() {
    local name=$1 wanted=$2 words=$3 ok=no
    shift 3
    run "$@"
    if [ "$status" = "$wanted" ] && grep -qF -- "$words" "$folder/stdout"; then ok=yes; fi
    answer "$name" "$ok"
}

# Wrong usage.
not_done "no argument"
says "no argument: the message says how to call it" "[--csv] FILE"
not_done "an unknown option" --cvs "$sample"
says "an unknown option: the message names it" "--cvs"
not_done "an unknown option after the file" "$sample" --verbose
not_done "an unknown short option" -c "$sample"
not_done "--csv twice" --csv --csv "$sample"
says "--csv twice: the message names it" "--csv"
not_done "--csv on both sides of the file" --csv "$sample" --csv
not_done "two files" "$sample" "$worked_day"
not_done "two files and --csv" --csv "$sample" "$worked_day"
not_done "--csv without a file" --csv

# Files that cannot be read.
not_done "a file that is not there" "$folder/nowhere.csv"
says "a file that is not there: the message names it" "nowhere.csv"
not_done "a file that is not there, with --csv" --csv "$folder/nowhere.csv"
not_done "a folder in place of a file" --csv "$folder"
not_done "an empty name" --csv ""
cp "$sample" "$folder/locked.csv"
chmod 000 "$folder/locked.csv"
if [ "$(id -u)" != 0 ]; then
    not_done "a file that may not be read" --csv "$folder/locked.csv"
fi

# Files that pass.
checked=$(cat <<'LINES'
checked
valuation_date,2023-05-02
hvar_weight,0.7500
svar_weight,0.2500
hvar_scenarios,4
svar_scenarios,5
hvar_tail,2
svar_tail,2
step,100
holiday_factor,0.4142135623
portfolio_stocks,2
flat_stocks,1
entitlements,1
LINES
)
prints "a file that passes, with --csv" 0 "$checked" --csv "$worked_day"
prints "--csv after the file" 0 "$checked" "$worked_day" --csv
reports "a file that passes, for people" 0 "10,000" "$sample"
sed 's/$/\r/' "$worked_day" >"$folder/crlf.csv"
prints "lines that end in CR LF" 0 "$checked" --csv "$folder/crlf.csv"
head -c -1 "$worked_day" >"$folder/unended.csv"
prints "no last line end" 0 "$checked" --csv "$folder/unended.csv"
cp "$worked_day" "$folder/a name with spaces.csv"
prints "a name with spaces" 0 "$checked" --csv "$folder/a name with spaces.csv"
reports "--help" 0 "--csv" --help
reports "--help has an example" 0 ".csv" --help

# Files that are refused, one for each question.
: >"$folder/1.csv"
head -5 "$worked_day" >"$folder/2.csv"
sed '3s/SVaR_WGT/Svar_WGT/' "$worked_day" >"$folder/3.csv"
sed '18s/.*/33,3/' "$worked_day" >"$folder/4.csv"
sed '14s/0\.01/.01/' "$worked_day" >"$folder/5.csv"
sed '14s/0\.01/4.01/' "$worked_day" >"$folder/6.csv"
sed '19s/.*/33,3,0.12/' "$worked_day" >"$folder/7.csv"
sed '17s/^22,2/22,5/' "$worked_day" >"$folder/8.csv"
for refusal in 1,0 2,6 3,3 4,18 5,14 6,14 7,19 8,15; do
    question=${refusal%,*}
    line=${refusal#*,}
    prints "question $question answered no, with --csv" 1 "refused,$refusal" --csv "$folder/$question.csv"
    if [ "$line" != 0 ]; then
        reports "question $question answered no, for people" 1 "question $question, line $line" "$folder/$question.csv"
    else
        reports "question $question answered no, for people" 1 "question $question" "$folder/$question.csv"
    fi
done

# Lengths. An endless file is read no further than one may be long.
head -c 67108865 /dev/zero >"$folder/long.csv"
prints "a file that is one byte too long" 1 "refused,1,0" --csv "$folder/long.csv"
head -c 67108864 /dev/zero >"$folder/long.csv"
prints "a file of the greatest length" 1 "refused,3,1" --csv "$folder/long.csv"
rm "$folder/long.csv"
prints "an endless file" 1 "refused,1,0" --csv /dev/zero
prints "no bytes at all" 1 "refused,1,0" --csv /dev/null

# A result that cannot be written is not done.
timeout "$seconds_at_most" "$program" --csv "$worked_day" >/dev/full 2>"$folder/stderr" </dev/null
status=$?
: >"$folder/stdout"
ok=no
[ "$status" = 1 ] && ok=yes
answer "standard output is full" "$ok"

echo "$passed passed, $failed failed"
[ "$failed" = 0 ]
